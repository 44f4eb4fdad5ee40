# Makes mcserver@.service of mcserver.service: the instance NAME has its options in /etc/default/mcserver-NAME, and doesn't
# start without that file, as it would want the port of all others.
s|^# Options go into /etc/default/mcserver,.*|# Options of the instance NAME go into /etc/default/mcserver-NAME, as in OPTIONS=-p 11311 -m 1024.|
s|^Description=mcserver,|Description=mcserver %i,|
s|^EnvironmentFile=-/etc/default/mcserver$|EnvironmentFile=/etc/default/mcserver-%i|
