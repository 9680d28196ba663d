"""What those who prove and measure Lizdrog run: checks over kept proofs, planted bodies, the gate's seconds, made
designs."""
