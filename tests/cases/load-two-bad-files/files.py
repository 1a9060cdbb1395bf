# Folders in which a file has one byte more than 4,194,304.
from pathlib import Path

LONG = b"\n" * 4_194_305

for name in ("long", "missing", "both"):
    Path(name).mkdir()
Path("long/clubs.csv").write_bytes(LONG)
Path("missing/clubs.csv").write_text("1,Reds\n")
Path("missing/fixtures.csv").write_bytes(LONG)
Path("both/clubs.csv").write_text("x\n")
Path("both/players.csv").write_bytes(LONG)
