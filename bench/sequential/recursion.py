class Application:
    def make(self):
        print(self.fibonacci(27))

    def fibonacci(self, n):
        result = 0
        if n < 2:
            result = n
        else:
            result = self.fibonacci(n - 1) + self.fibonacci(n - 2)
        return result


Application().make()
