class APPLICATION create make
feature
	cell: separate CELL
	one, other: separate WRITER
	make do create cell create one.make (1, cell) create other.make (2, cell) end
end
class CELL
feature
	put (n: INTEGER) do print (n) end
end
class WRITER create make
feature
	make (n: INTEGER; c: separate CELL) do c.put (n) end
end
