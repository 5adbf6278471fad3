#!/bin/sh
# certificate.sh NET CON CERT: passes where the certificate holds. Else prints what fails, then the audit, and fails.
cdcaudit check "$1" "$2" "$3" && exit 0
status=$?
[ "$status" -ne 1 ] || cdcaudit audit "$1" "$2"
exit "$status"
