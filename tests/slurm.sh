# A Slurm of one machine, for tests, where slurm-wlm is installed: sourced by them, after tests/lib.sh. It listens only here, and needs no munge.

has_slurm() {
    command -v slurmctld >/dev/null && command -v slurmd >/dev/null && command -v sbatch >/dev/null && [ "$(id -u)" -eq 0 ]
}

# Starts it in a folder: start_slurm FOLDER. Two ports are taken that nothing listens on now.
start_slurm() {
    mkdir -p "$1/state" "$1/spool"
    host=$(hostname -s)
    ports=$(python3 -c 'import socket
taken = [socket.socket() for _ in range(2)]
for each in taken: each.bind(("127.0.0.1", 0))
print(*[each.getsockname()[1] for each in taken])')
    cat >"$1/slurm.conf" <<END
ClusterName=test
SlurmctldHost=$host(127.0.0.1)
SlurmUser=root
AuthType=auth/none
CredType=cred/none
SlurmctldPort=${ports% *}
SlurmdPort=${ports#* }
StateSaveLocation=$1/state
SlurmdSpoolDir=$1/spool
SlurmctldPidFile=$1/slurmctld.pid
SlurmdPidFile=$1/slurmd.pid
ProctrackType=proctrack/linuxproc
TaskPlugin=task/none
SelectType=select/cons_tres
SelectTypeParameters=CR_CPU
ReturnToService=2
NodeName=$host NodeAddr=127.0.0.1 CPUs=$(nproc) State=UNKNOWN
PartitionName=all Nodes=ALL Default=YES MaxTime=INFINITE State=UP
END
    export SLURM_CONF="$1/slurm.conf"
    slurmctld -D >"$1/slurmctld.log" 2>&1 &
    slurm_processes=$!
    slurmd -D >"$1/slurmd.log" 2>&1 &
    slurm_processes="$slurm_processes $!"
    await_that is_slurm_idle
}

is_slurm_idle() {
    sinfo --noheader --format %t 2>/dev/null | grep -q '^idle'
}

stop_slurm() {
    # shellcheck disable=SC2086
    kill $slurm_processes && wait $slurm_processes 2>/dev/null
    unset SLURM_CONF
}
