# The list of fixtures in each stage of the season.
from views import STAGES, play

play({stage: ["/api/fixtures"] for stage in STAGES})
