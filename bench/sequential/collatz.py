class Application:
    def make(self):
        self.longest = 0
        i, steps = 1, 0
        while not i >= 10000:
            steps = self.length(i)
            if steps > self.longest and i != 0:
                self.longest = steps
            i = i + 1
        print(self.longest)

    def length(self, start):
        result = 0
        n = start
        while not n == 1:
            if self.is_even(n):
                n = n // 2
            else:
                n = 3 * n + 1
            result = result + 1
        return result

    def is_even(self, n):
        return n % 2 == 0


Application().make()
