# Folders whose file of clubs has 4,194,304 bytes, and one more; and one in which a folder stands in its place.
import os

for folder, length in (("longest", 4194304), ("longer", 4194305), ("folder", 0)):
    os.mkdir(folder)
    with open(f"{folder}/players.csv", "w") as file:
        file.write("7,Ann,G,1,45\n")
    with open(f"{folder}/fixtures.csv", "w") as file:
        file.write("3,1,2,1,2090-08-11T19:00:00Z\n")
    if length:
        with open(f"{folder}/clubs.csv", "w") as file:
            file.write("1,Reds\n2,Blues\n".ljust(length, "\n"))
    else:
        os.mkdir(f"{folder}/clubs.csv")
