-- Leap years: arithmetic, conditions and printing.
--
--     ./scoop run --root CALENDAR.make examples/calendar.e

class CALENDAR

create make

feature

	year: INTEGER
	leap_years: INTEGER

	make
		do
			year := 1896
			count
			print (leap_years)
			print (" leap years%N")
		end

	count
			-- Look at each fourth year up to 1908, and then at some centuries.
		do
			if year <= 1908 then
				tell
				year := year + 4
				count
			elseif year < 2_000 then
				year := 2_000
				tell
				year := 2_100
				tell
			end
		end

	tell
			-- Print the year, and whether it is a leap year.
			-- `\\` is the remainder: `year \\ 4 = 0` where 4 divides the year.
		do
			print (year)
			if year \\ 400 = 0 then
				print (": leap, since 400 divides it%N")
				leap_years := leap_years + 1
			elseif year \\ 100 = 0 then
				print (": not leap, since 100 divides it%N")
			elseif year \\ 4 = 0 then
				print (": leap%N")
				leap_years := leap_years + 1
			else
				print (": not leap%N")
			end
		end

invariant

	leap_years >= 0

end
