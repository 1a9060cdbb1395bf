# The files of three seasons: the largest one, the same with one fixture more, and one with a player more than there can be; and
# one gameweek with 21 fixtures.
import os


def season(folder, players, fixtures, gameweeks):
    os.mkdir(folder)
    with open(f"{folder}/clubs.csv", "w") as file:
        file.writelines(f"{club},C{club}\n" for club in range(1, 21))
    with open(f"{folder}/players.csv", "w") as file:
        file.writelines(f"{player},P{player},M,{player % 20 + 1},50\n" for player in range(1, players + 1))
    with open(f"{folder}/fixtures.csv", "w") as file:
        for fixture in range(1, fixtures + 1):
            gameweek = (fixture - 1) % gameweeks + 1
            file.write(f"{fixture},1,2,{gameweek},2090-{(gameweek - 1) // 28 + 1:02}-{(gameweek - 1) % 28 + 1:02}T15:00:00Z\n")


season("largest", 1200, 380, 38)
season("a-fixture-more", 1200, 381, 38)
season("a-player-more", 1201, 1, 1)
season("a-crowded-gameweek", 1, 21, 1)
