"""What a request is answered by that is not done."""


class Refused(Exception):
    """The number of a refusal, and what it names."""

    def __init__(self, rule, **named):
        super().__init__(rule)
        self.rule, self.named = rule, named


class Unknown(Exception):
    """What a request names is not there."""


def need(is_there):
    if not is_there:
        raise Unknown


def refuse_repeats(rule, players):
    for place, player in enumerate(players):
        if player in players[:place]:
            raise Refused(rule, player=player)
