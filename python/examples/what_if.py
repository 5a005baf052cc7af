"""Three claims on an estate: what does each get if the estate is larger or smaller, and which numbers matter?"""
import coop
from coop import sensitivity

game = coop.bankruptcy(200, {"Anna": 100, "Bert": 200, "Cleo": 300})
path = sensitivity.along(game, "estate", -200, 400)
for piece in path.pieces:
    print(200 + piece.low, "to", 200 + piece.high, *map(str, piece.slopes.values()))
print(path.at("33.50")["Bert"], path.check(), path.check(anew=True))
print([found.what for found in sensitivity.ranges(game) if found.matters])
