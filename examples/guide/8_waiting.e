class APPLICATION create make
feature
	box: separate BOX
	putter: separate PUTTER
	make do create box create putter separate putter as p do p.put_into (box) end take_from (box) end
	take_from (b: separate BOX)
		require
			b.is_full
		do
			print (b.item)
			b.empty
		end
end
class BOX
feature
	is_full: BOOLEAN
	item: INTEGER
	put (n: INTEGER) do item := n is_full := True end
	empty do is_full := False end
end
class PUTTER
feature
	put_into (b: separate BOX)
		require
			not b.is_full
		do
			b.put (7)
		end
end
