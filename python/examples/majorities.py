"""Of three states two are needed, and six of their ten million people: who has how much power?"""
import coop

people = {"A": 5, "B": 3, "C": 2}
vote = coop.table_of(list(people), lambda some: len(some) >= 2 and sum(people[name] for name in some) >= 6)
for name, power in coop.shapley(vote).shares.items():
    print(name, power)
