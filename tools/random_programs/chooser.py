"""What a program is made with: choices at random by a seed, and counts of what was used."""
import random
from collections import Counter


class Chooser:
    def __init__(self, seed):
        self.random = random.Random(seed)
        self.used = Counter()

    def chance(self, part):
        return self.random.random() < part

    def among(self, things):
        return self.random.choice(list(things))

    def pick(self, *things):
        return self.random.choice(things)

    def number(self, low, high):
        return self.random.randint(low, high)

    def some(self, things, most):
        """Up to so many of these, in their order."""
        things = list(things)
        chosen = set(self.random.sample(range(len(things)), min(len(things), self.number(0, most))))
        return [thing for at, thing in enumerate(things) if at in chosen]

    def weighed(self, *pairs):
        """One of (weight, thing), each with its share."""
        return self.random.choices([thing for _, thing in pairs], [weight for weight, _ in pairs])[0]

    def use(self, construct):
        self.used[construct] += 1
