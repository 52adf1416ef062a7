class Node:
    def __init__(self, i, n):
        self.item = i
        self.next = n


class Application:
    def make(self):
        first = None
        i = 1
        total = 0
        while not i > 60000:
            first = Node(i, first)
            i = i + 1
        node = first
        while not node is None:
            n = node
            if n:
                total = total + n.item
                node = n.next
        print(total)


Application().make()
