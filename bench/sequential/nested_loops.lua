local Application = {}
Application.__index = Application

function Application:make()
	local n, d, count, prime = 2, 0, 0, false
	while not (n >= 20000) do
		prime = true
		d = 2
		while not (not prime or d * d > n) do
			if n % d == 0 then
				prime = false
			end
			d = d + 1
		end
		if prime then
			count = count + 1
		end
		n = n + 1
	end
	print(count)
end

setmetatable({}, Application):make()
