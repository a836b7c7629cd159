"""Recording programs that run on QEMU: see `difftest_probes.recorder.command`."""
