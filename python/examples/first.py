"""Three airlines share a runway: what should each pay, and may they pay 3, 1 and 2?"""
import coop

game = coop.airport({"light": 2, "medium": 4, "heavy": 6})
answer = coop.nucleolus(game)
if isinstance(answer, coop.Nucleolus):  # and not coop.NoImputation
    print(answer.shares["medium"], coop.check(answer))
print(coop.propose(game, {"light": 3, "medium": 1, "heavy": 2}))
try:
    coop.bird(game)
except coop.Usage as refusal:
    print(refusal)
