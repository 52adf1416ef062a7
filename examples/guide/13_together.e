class APPLICATION create make
feature
	left, right: separate FORK
	make
		local one, other: separate FRIEND
		do
			create left
			create right
			create one.make (left, right)
			create other.make (right, left)
			separate one as a, other as b do a.eat b.eat end
		end
end
class FORK
feature
	uses: INTEGER
	use do uses := uses + 1 end
end
class FRIEND create make
feature
	first, second: separate FORK
	make (f, s: separate FORK) do first := f second := s end
	eat do separate first as f, second as s do f.use s.use end end
end
