-- A pipeline: each stage is a handler that works on a number and hands it to the next one.
--
-- `x.take (n)` on a reserved stage is a command: it is put into the stage's queue and not waited for, so all stages work
-- at once. A stage knows the next one by an attribute, and reserves it for each number by a separate block.
--
--     ./scoop run examples/pipeline.e

class APPLICATION

create make

feature

	make
		local
			doubling, counting: separate STAGE
			n: INTEGER
		do
			create counting.make (1, Void)
			create doubling.make (2, counting)
			from
			until
				n = 5
			loop
				n := n + 1
				separate doubling as d do
					d.take (n)
				end
			end
		end

end

class STAGE

create make

feature

	factor: INTEGER
	next: detachable separate STAGE

	make (f: INTEGER; n: detachable separate STAGE)
		do
			factor := f
			next := n
		end

	take (n: INTEGER)
		do
			if attached next as stage then
				pass_to (stage, n * factor)
			else
				print (n)
				print ("%N")
			end
		end

	pass_to (stage: separate STAGE; n: INTEGER)
		do
			stage.take (n)
		end

end
