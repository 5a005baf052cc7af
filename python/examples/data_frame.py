"""A data frame of games, one a row."""
import pandas

import coop

groups = ["Ann", "Bob", "Cem", "Ann+Bob", "Ann+Cem", "Bob+Cem", "Ann+Bob+Cem"]
rows = [[0, 0, 0, 6, 2, 2, 12], [0.5, 0, 0, 2.5, 2.5, 3, 4.25], [5, 5, 5, 10, 10, 10, 9]]
frame = pandas.DataFrame(rows, columns=groups, index=["May", "June", "July"])
games = [coop.table(row, digits=4) for _, row in frame.iterrows()]
answers = [answer for answer, in coop.many("nucleolus", games)]
shares = pandas.DataFrame([answer.to_pandas(places=2) for answer in answers], frame.index, groups[:3])
print(shares)
for month, answer in zip(frame.index, answers):
    if not answer:
        print(month, answer.fault if isinstance(answer, coop.Failure) else "has no nucleolus")
