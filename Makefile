# Two commands: `make demo` shows the main job on a real frame, `make test` is the whole gate.
.PHONY: demo test

demo:
	@echo "--- the sheet's bytes, as they are filed"
	@tools/run dump < examples/beam.sheet
	@echo "--- each row over the starting box, with the nominal dimensions inside"
	@tools/run nominal < examples/beam.sheet
	@echo "--- feasible (F) and undecided (U) ranges"
	@tools/run ranges < examples/beam.sheet

test:
	tools/gate
