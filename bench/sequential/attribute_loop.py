class Application:
    def make(self):
        self.i = 0
        self.total = 0
        while not self.i >= 2000000:
            self.add(self.i)
            self.i = self.i + 1
        print(self.total)

    def add(self, n):
        self.total = self.total + n


Application().make()
