#!/bin/bash
#SBATCH --job-name=yara-fleet
#SBATCH --array=0-3
#SBATCH --cpus-per-task=1
#SBATCH --output=log.%a
# One task of an array: scans its part of a list, and goes on where it was cut when it is requeued.
#   find DIR -type f -print0 | split -t '\0' -n r/4 -d -a 3 - part.
#   sbatch slurm-array.sh IMAGE
set -eu
fleet=${YARA_FLEET:-yara-fleet}
part=$(printf 'part.%03d' "$SLURM_ARRAY_TASK_ID")
exec "$fleet" scan --without-dask --workers "${SLURM_CPUS_PER_TASK:-1}" \
    --resume "ledger.$SLURM_ARRAY_TASK_ID" --output "answers.$SLURM_ARRAY_TASK_ID.json" \
    --files0-from "$part" "$1"
