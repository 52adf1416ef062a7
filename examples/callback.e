-- A callback that comes through, and one that doesn't.
--
-- A worker asks back for the limit while its client waits for it. In `ask` the client passes itself, as a reference that it
-- holds: with it go its rights, and the worker's question is a callback, which the client answers while it waits. In `ask_aside`
-- it passes a reference that it doesn't hold. The worker then waits until the client is idle, and the client for the worker.
--
--     ./scoop run --explain examples/callback.e

class APPLICATION

create make

feature

	worker: separate WORKER

	myself: separate APPLICATION

	limit: INTEGER
		do
			Result := 10
		end

	make
		do
			create worker
			myself := Current
			ask (worker)
			ask_aside (worker)
		end

	ask (w: separate WORKER)
		do
			print (w.doubled (Current))
		end

	ask_aside (w: separate WORKER)
		do
			print (w.doubled (myself))
		end

end

class WORKER

feature

	doubled (client: separate APPLICATION): INTEGER
		do
			Result := client.limit * 2
		end

end
