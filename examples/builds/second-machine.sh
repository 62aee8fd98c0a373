# Sourced behind begin.sh: an ssh server of its own on this machine, which stands for a second machine, and ends with the script.
# `ssh -F ssh/config second` comes to it by a key that is made here. It begins in the folder `second`, with jcov on the PATH.
# Wants ssh, sshd and python3
for needed in ssh ssh-keygen /usr/sbin/sshd; do
    command -v "$needed" > said || fail "no $needed"
done
mkdir ssh second
ssh-keygen -q -t ed25519 -N '' -f ssh/host
ssh-keygen -q -t ed25519 -N '' -f ssh/key
port=$(python3 -c 'import socket; it = socket.socket(); it.bind(("127.0.0.1", 0)); print(it.getsockname()[1])')
cat > ssh/server <<SERVER
ListenAddress 127.0.0.1
Port $port
HostKey $folder/ssh/host
AuthorizedKeysFile $folder/ssh/key.pub
PidFile none
StrictModes no
PasswordAuthentication no
KbdInteractiveAuthentication no
ForceCommand cd $folder/second && HOME=\$PWD PATH=$folder/bin:\$PATH exec sh -c "\$SSH_ORIGINAL_COMMAND"
SERVER
echo "second $(cat ssh/host.pub)" > ssh/known
cat > ssh/config <<CONFIG
Host second
    HostName 127.0.0.1
    HostKeyAlias second
    Port $port
    IdentityFile $folder/ssh/key
    IdentitiesOnly yes
    UserKnownHostsFile $folder/ssh/known
    BatchMode yes
CONFIG
# A server that root starts wants this folder.
[ -d /run/sshd ] || [ "$(id -u)" -ne 0 ] || mkdir /run/sshd
/usr/sbin/sshd -D -f "$folder/ssh/server" -E "$folder/ssh/log" > said 2>&1 &
server=$!
trap 'kill $server || :; rm -rf "$folder"' EXIT
for wait in 1 2 3 4 5 6 7 8 9 10; do
    ! ssh -F ssh/config second true 2> complaint || break
    [ "$wait" -lt 10 ] || fail "the ssh server doesn't answer: $(cat complaint ssh/log)"
    sleep 1
done
