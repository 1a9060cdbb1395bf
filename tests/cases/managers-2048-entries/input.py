# 2,048 entries, two that are too many, and the last manager's own.
from managers import OPERATOR, ask, begin, do, is_refused

begin()
for entry in range(2, 2049):
    do(OPERATOR, "/keys", key=f"entrykey{entry}", name=f"Entry {entry}")
is_refused(OPERATOR, "/keys", key="entrykey2049", name="Entry 2049")
is_refused(OPERATOR, "/keys", key="entrykey2048", name="Entry 2049")
ask("/me", "entrykey2048")
ask("/me", "entrykey2049")
