class APPLICATION create make
feature
	s: separate CELL
	make do create s.set (4) s.set (5) end
end
class CELL create set
feature
	item: INTEGER
	set (v: INTEGER) do item := v end
end
