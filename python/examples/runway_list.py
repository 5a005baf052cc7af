"""What each airline of a list pays for all its landings, however many: the nucleolus, in cents that add up."""
import sys

from coop import runways
from coop.airlines import landings_in
from coop.styles import Style, each

text = "" if sys.stdin.isatty() else sys.stdin.read()
if not text:
    sys.exit("give the list on standard input: runway_list.py < LANDINGS.csv")
paid = runways.nucleolus((row.airline, row.need, row.landings) for row in landings_in(text))
for name, share in zip(paid, each(list(paid.values()), Style(2))):
    print(name, share)
