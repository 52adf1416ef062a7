class APPLICATION create make
feature
	count: INTEGER
	helper: separate HELPER
	make do create helper separate helper as h do h.work_for (Current) end print (count) end
	raise do count := count + 1 end
end
class HELPER
feature
	work_for (a: separate APPLICATION) do a.raise end
end
