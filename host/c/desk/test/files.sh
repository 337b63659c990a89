# The file itself: its mode and owner, links to it, and what stands beside it.

access_of() { # FILE
    ls -ln "$1" | awk '{ print substr($1, 1, 10), $3, $4 }'
}

gives 0 new own 2
check "a new store is for its owner alone" [ "$(access_of own)" = "-rw------- $(id -u) $(id -g)" ]

# Mode, owner and group stay. Only root can give the file away first; for others it stays their own.
chmod 640 own
[ "$(id -u)" != 0 ] || chown 4711:4712 own
before=$(access_of own)
gives 0 add own 305 $keys <blue
check "mode, owner and group stay" [ "$(access_of own)" = "$before" ]
check "the lock has them too" [ "$(access_of own.desk-lock)" = "$before" ]
check "the file written beside is gone" [ ! -e own.desk-new ]

# Behind a link the file is replaced and not the link, and it has one lock.
mkdir elsewhere
ln -s ../own elsewhere/linked
gives 0 remove elsewhere/linked 305
check "the link is still one" [ -h elsewhere/linked ]
holds own free free
check "the lock is beside the file" [ ! -e elsewhere/linked.desk-lock ]
ln -s nowhere dangling
gives 106 new dangling 2
check "nothing is made behind a link" [ ! -e nowhere ]

# Stores in other directories.
gives 0 new "$work/elsewhere/store" 1
gives 0 add elsewhere/store 305 $keys <blue
counts ./elsewhere/../elsewhere/store "used 1 free 0 clear 0 old 0 new 1"

# The names beside a store are no stores of their own: the next change would remove one.
for ending in desk-new desk-lock desk-before; do
    gives 102 new "own.$ending" 2
    says "are for the store beside them"
done
# A copy may be looked at, and not changed.
cp own own.desk-before
counts own.desk-before "used 0 free 2 clear 0 old 0 new 0"
gives 102 add own.desk-before 305 $keys <blue
rm own.desk-before
gives 102 check own.desk-lock

# A store that is looked at needs no lock, and none is made.
cp own looked
for words in check list; do gives 0 "$words" looked; done
check "no lock is made to look" [ ! -e looked.desk-lock ]
