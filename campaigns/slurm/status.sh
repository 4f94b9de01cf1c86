#!/usr/bin/env bash
# Says of a job of Slurm, as Snakemake asks it, whether it is running, success or failed: by the controller, and once that has forgotten it by the
# accounts, where Slurm keeps some.
set -u
state=$(scontrol --oneliner show job "$1" 2>/dev/null | sed -n 's/.* JobState=\([A-Z_]*\).*/\1/p')
[ -n "$state" ] || state=$(sacct --noheader --allocations --parsable2 --format=State --jobs="$1" 2>/dev/null | head -n 1)
case ${state%% *} in
  COMPLETED) echo success ;;
  PENDING | CONFIGURING | RUNNING | COMPLETING | SUSPENDED | REQUEUED | RESIZING | SIGNALING | STOPPED | STAGE_OUT) echo running ;;
  *) echo failed ;;
esac
