# The transfers. P9 was bought at 50 and costs 53, so he is sold for 51; P17 costs 55, and P18 60.
from views import answer_play


def transfer(entry, event, out, sold, into, bought):
    return {"element_in": into, "element_in_cost": bought, "element_out": out, "element_out_cost": sold, "entry": entry, "event": event}


ONE = [transfer(1, 2, 9, 51, 17, 55), transfer(1, 2, 15, 50, 16, 50)]  # the second swap of the batch first
TWO = [transfer(2, 2, 10, 50, 18, 60)]
THREE = []  # its one is of its first gameweek
answer_play(
    {
        "begun": [[], [], None],
        "first": [[], [], []],
        "second": [ONE, TWO, THREE, None, None, None],
        "moved": [ONE, TWO, THREE],
        "third": [[transfer(1, 3, 17, 55, 9, 53), *ONE], TWO, THREE],
    }
)
