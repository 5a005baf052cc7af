"""Three villages, and the links that exist: what the cheapest network of each group costs."""
from coop.networks import table_of_links

links = {("plant", "Ash"): "5", ("Ash", "Bray"): "3", ("Ash", "Colne"): "4.50"}
game = table_of_links(links, source="plant", names=["Ash", "Bray", "Colne"])
print(game.document().decode())
