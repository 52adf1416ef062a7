class Application:
    def make(self):
        self.total = 0
        i = 0
        while not i >= 2000000:
            self.add(i)
            i = i + 1
        print(self.total)

    def add(self, n):
        self.total = self.total + n


Application().make()
