class Counter:
    def __init__(self):
        self.count = 0

    def add(self, n):
        self.count = self.count + n

    def is_even(self):
        return self.count % 2 == 0


class Double(Counter):
    def add(self, n):
        self.count = self.count + 2 * n


class Application:
    def make(self):
        i, total = 0, 0
        c = Double()
        while not i >= 300000:
            c.add(i)
            if c.is_even():
                total = total + c.count
            i = i + 1
        print(total)


Application().make()
