#!/bin/sh
# Says for Snakemake how a job of Slurm is: running, success or failed. Slurm forgets an ended job after some
# minutes; then its accounting is asked, where there is one.
said=$(scontrol show job "$1" 2>/dev/null | tr ' ' '\n' | sed -n 's/^JobState=//p')
[ -n "$said" ] || said=$(sacct -n -X -P -o State -j "$1" 2>/dev/null | head -n 1)
case $said in
    COMPLETED) echo success ;;
    PENDING | RUNNING | CONFIGURING | COMPLETING | REQUEUED | REQUEUE* | RESIZING | SUSPENDED | STAGE_OUT | SIGNALING)
        echo running ;;
    *) echo failed ;;
esac
