class Application:
    def make(self):
        n, d, count, prime = 2, 0, 0, False
        while not n >= 20000:
            prime = True
            d = 2
            while not (not prime or d * d > n):
                if n % d == 0:
                    prime = False
                d = d + 1
            if prime:
                count = count + 1
            n = n + 1
        print(count)


Application().make()
