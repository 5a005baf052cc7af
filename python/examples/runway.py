"""Four hundred landings on one runway: what each airline pays for all of its own, by two rules."""
from coop import runways

landings = [("Aer", "20.50", 300), ("Bee", "40", 80), ("Aer", "40", 10), ("Cargo", "60", 10)]
for rule in (runways.nucleolus, runways.shapley):
    print(rule.__name__)
    for name, share in rule(landings).items():
        print(f"  {name}: {float(share):.2f} ({share})")
