# The cups. Points after deductions are worked out in windows-of-an-entry.
from views import answer_play


def tie(one, other, points=None, others=None, winner=None):
    return {"entry_1": one, "entry_1_points": points, "entry_2": other, "entry_2_points": others, "winner": winner}


def cup(number, start, *rounds):
    return {"id": number, "rounds": [{"event": start + at, "ties": ties} for at, ties in enumerate(rounds)], "start_event": start}


FINAL = cup(1, 3, [tie(2, 1)])
answer_play(
    {
        "begun": [FINAL, None],
        "first": [FINAL, cup(2, 2, [tie(1, None), tie(3, 2)], [tie(None, None)])],
        "second": [FINAL, cup(2, 2, [tie(1, None, 57, winner=1), tie(3, 2, 66, 47, 3)], [tie(1, 3)]), None, None],
        "corrected": [FINAL, cup(2, 2, [tie(1, None, 65, winner=1), tie(3, 2, 74, 49, 3)], [tie(1, 3)])],
        "moved": [FINAL, cup(2, 2, [tie(1, None, 32, winner=1), tie(3, 2, 30, 37, 2)], [tie(1, 2)])],
        # No points, no goals and none conceded: the coin is 1 in cup 1, and 0 in the final of cup 2.
        "third": [cup(1, 3, [tie(2, 1, 0, 0, 1)]), cup(2, 2, [tie(1, None, 32, winner=1), tie(3, 2, 30, 37, 2)], [tie(1, 2, 0, 0, 1)])],
    }
)
