-- An account that is left overdrawn. The run reports
--
--     handler 0 failed F1 refused 0 output 10
--     paying 150
--     stopped idle
--
-- and ends with status 3: at the end of the creation `make` the invariant doesn't hold. What was
-- printed before stays.
--
--     ./scoop run --root ACCOUNT.make examples/overdraft.e

class ACCOUNT

create make

feature

	balance: INTEGER
	due: INTEGER

	make
		do
			balance := 100
			due := 150
			pay
		end

	pay
		do
			print ("paying ")
			print (due)
			balance := balance - due
			due := 0
		end

invariant

	never_overdrawn: balance >= 0

end
