class TESTS create test_alone, test_together
feature
	test_alone
		local c: separate CELL
		do
			create c
			separate c as x do x.put (1) check x.value = 1 end end
		end
	test_together
		local
			c: separate CELL
			one, other: separate WRITER
		do
			create c
			create one.make (c)
			create other.make (c)
			separate one as a, other as b do a.write (1) b.write (2) check a.is_done and b.is_done end end
			separate c as x do check x.value = 2 end end
		end
end
class CELL
feature
	value: INTEGER
	put (n: INTEGER) do value := n end
end
class WRITER create make
feature
	cell: separate CELL
	is_done: BOOLEAN
	make (c: separate CELL) do cell := c end
	write (n: INTEGER)
		do
			separate cell as c do c.put (n) end
			is_done := True
		end
end
