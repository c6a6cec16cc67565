"""firm-slurm: Slurm executes what firm decides."""
