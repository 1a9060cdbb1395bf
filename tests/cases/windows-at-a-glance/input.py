# The season at a glance in each stage.
from views import STAGES, play

play({stage: ["/api/bootstrap-static"] for stage in STAGES})
