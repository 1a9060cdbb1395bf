# Cups 1 and 2, and cups that are not there.
from views import play

CUPS = ["/api/cups/1", "/api/cups/2"]
play(
    {
        "begun": CUPS,
        "first": CUPS,
        "second": [*CUPS, "/api/cups/0", "/api/cups/3"],
        "corrected": CUPS,
        "moved": CUPS,
        "third": CUPS,
    }
)
