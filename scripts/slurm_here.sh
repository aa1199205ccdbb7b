#!/bin/sh
# Runs a command with a Slurm of this machine alone, which is started before and stopped behind it.
#
# usage: slurm_here.sh [--nodes N] [--] [COMMAND ..]
#
# It installs Debian's slurm-wlm and munge where they aren't there, starts munged (unless one runs already),
# slurmctld and one slurmd for each of N nodes, and shares the processors and the memory of the machine among
# them. All of it listens on the loopback alone. The status is that of the command; 125 where Slurm can't be
# started. Without a COMMAND it is snakemake --profile workflow/slurm --jobs 16. Only root can run it.
set -u

give_up() {
    echo "slurm_here: $1" >&2
    exit 125
}

nodes=1
if [ "${1-}" = --nodes ]; then
    nodes=$2
    shift 2
fi
[ "${1-}" = -- ] && shift
[ $# -gt 0 ] || set -- snakemake --profile workflow/slurm --jobs 16
[ "$(id -u)" -eq 0 ] || give_up "only root can start munged and Slurm here"

if ! command -v slurmctld >/dev/null || ! command -v slurmd >/dev/null || ! command -v munged >/dev/null; then
    DEBIAN_FRONTEND=noninteractive apt-get install -y --no-install-recommends slurm-wlm munge >&2 ||
        give_up "slurm-wlm and munge can't be installed"
fi

room=$(mktemp -d) || give_up "there is no room"
started=
own_munged=

# Stops what was started here, by its number, and waits for its end.
stop() {
    for pid in $started; do
        kill "$pid" 2>/dev/null
    done
    for pid in $started; do
        wait "$pid" 2>/dev/null
    done
    if [ -n "$own_munged" ]; then
        kill "$own_munged" 2>/dev/null
        while kill -0 "$own_munged" 2>/dev/null; do sleep 0.1; done
    fi
    rm -rf "$room"
}
trap stop EXIT
trap 'exit 130' INT
trap 'exit 143' TERM

if ! munge -n 2>/dev/null | unmunge >/dev/null 2>&1; then
    mkdir -p /run/munge && chown munge:munge /run/munge || give_up "/run/munge can't be made"
    [ -e /etc/munge/munge.key ] || su -s /bin/sh munge -c /usr/sbin/mungekey
    su -s /bin/sh munge -c /usr/sbin/munged || give_up "munged can't be started"
    own_munged=$(cat /run/munge/munged.pid)
fi

# The machine as so many nodes, each with its share.
host=$(hostname -s)
cpus=$(($(nproc) / nodes))
[ "$cpus" -gt 0 ] || cpus=1
memory=$(awk -v nodes="$nodes" '/^MemTotal:/ { print int($2 / 1024 * 0.9 / nodes) }' /proc/meminfo)
mkdir -p "$room/state" "$room/log"
{
    cat <<END
ClusterName=here
SlurmctldHost=$host(127.0.0.1)
SlurmUser=root
SlurmdUser=root
AuthType=auth/munge
StateSaveLocation=$room/state
SlurmdSpoolDir=$room/spool.%n
SlurmctldPidFile=$room/ctld.pid
SlurmdPidFile=$room/%n.pid
SlurmctldLogFile=$room/log/ctld.log
SlurmdLogFile=$room/log/%n.log
SlurmctldPort=16817
CommunicationParameters=NoCtldInAddrAny,NoInAddrAny
ProctrackType=proctrack/linuxproc
TaskPlugin=task/none
SchedulerType=sched/backfill
SchedulerParameters=sched_interval=5
SelectType=select/cons_tres
SelectTypeParameters=CR_Core_Memory
ReturnToService=2
SlurmdTimeout=30
MpiDefault=none
JobAcctGatherType=jobacct_gather/none
AccountingStorageType=accounting_storage/none
END
    node=1
    names=
    while [ "$node" -le "$nodes" ]; do
        echo "NodeName=here$node NodeHostname=$host NodeAddr=127.0.0.1 Port=$((16818 + node))" \
            "CPUs=$cpus RealMemory=$memory"
        names=$names${names:+,}here$node
        node=$((node + 1))
    done
    echo "PartitionName=all Nodes=$names Default=YES MaxTime=INFINITE State=UP"
} >"$room/slurm.conf"
SLURM_CONF=$room/slurm.conf
export SLURM_CONF

slurmctld -D >"$room/log/ctld.out" 2>&1 &
started="$started $!"
node=1
while [ "$node" -le "$nodes" ]; do
    mkdir -p "$room/spool.here$node"
    slurmd -D -N "here$node" >"$room/log/here$node.out" 2>&1 &
    started="$started $!"
    node=$((node + 1))
done
tries=0
until [ "$(sinfo -h -N -t idle 2>/dev/null | wc -l)" -eq "$nodes" ]; do
    tries=$((tries + 1))
    if [ "$tries" -gt 60 ]; then
        tail -n 5 "$room"/log/* >&2
        give_up "Slurm doesn't come up"
    fi
    sleep 0.5
done
echo "slurm_here: $nodes node(s) of $cpus processor(s) and $memory MB" >&2

"$@"
