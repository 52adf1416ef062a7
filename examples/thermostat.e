-- A thermostat that steps towards its target.
--
--     ./scoop run --root THERMOSTAT.start examples/thermostat.e
--
-- A class invariant must hold when a creation ends, and not before: `start` breaks the invariant of
-- this class on its way, and mends it in time.

class THERMOSTAT

create start

feature -- What the thermostat knows

	target: INTEGER
	temperature: INTEGER
	heating, cooling: BOOLEAN

feature -- What it does

	start
			-- Begin in a cold room, and go on until it is warm enough.
		do
			target := 21
			temperature := 18
				-- Here nothing heats although the room is cold, so `heats_if_cold` is false.
			adjust
			regulate
		end

	regulate
			-- Heat or cool one degree at a time: the routine calls itself for as long as it takes.
		do
			report
			if heating then
				temperature := temperature + 1
				adjust
				regulate
			elseif cooling then
				temperature := temperature - 1
				adjust
				regulate
			end
		end

	adjust
		do
			heating := temperature < target
			cooling := temperature > target
		end

	report
		do
			print (temperature)
			if heating then
				print (" degrees, heating%N")
			elseif cooling then
				print (" degrees, cooling%N")
			else
				print (" degrees%N")
			end
		end

invariant
	heats_if_cold: temperature < target implies heating
	cools_if_warm: temperature > target implies cooling
	not_both: not (heating and cooling)

end
