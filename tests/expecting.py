"""Expectations that are counted: each that fails is printed, and the test goes on."""


class Expecting:
    def __init__(self, name):
        self.name, self.wrong = name, 0

    def __call__(self, holds, said):
        if not holds:
            self.wrong += 1
            print(f"{self.name}: {said}")
