class APPLICATION create make
feature
	divider: separate DIVIDER
	make do create divider separate divider as d do print (d.quotient (12, 0)) end end
end
class DIVIDER
feature
	quotient (a, b: INTEGER): INTEGER do Result := a // b end
end
