"""How far the clocks of the example's round are apart, and how far they may be, as it was worked out by hand; and that the same is told of daemons'
traces as of the schedule and the claims that they make."""
import io
import sys

from lab import distances
from stories import story_of
from tsp_texts import claims, history, verdict

# The follower's clock was read at 630,000,300 with an error of 401, and was corrected at 638,000,400: 802 is the drift of a ten-thousandth in
# the 8,000,100 between, rounded up, and 1. The targets are then 250 and 150 below true time.
WANTED = distances.Distance(100, 401 + 2 * 802)


def wants_alike(name):
    """Wants the same of a story and of its texts, and that no clocks are further apart than is promised."""
    story = story_of(name)
    told = verdict.read(story.schedule().encode())
    found = distances.summary(distances.history_of(story, told.drift))
    texts = distances.summary(history.History(told, claims.acts_of(io.BytesIO(story.claimed().encode()), told)))
    if found != texts:
        sys.exit(f'of {name} {found} is told, and of its texts {texts}')
    if found['part'] > 1:
        sys.exit(f'clocks of {name} are further apart than is promised: {found}')


def main():
    with open('examples/round.tsp', 'rb') as file:
        told = verdict.read(file.read())
    found = list(distances.distances(history.History(told, claims.read('examples/round.trace', told))))
    if not found or found[0] != WANTED:
        sys.exit(f'the clocks of the round are told as {found}, and not {WANTED}')
    for name in 'three', 'drifting', 'loops', 'strict':
        wants_alike(name)


main()
