#!/usr/bin/env bash
# A first session, as the bytes of one connection: puts a schedule, asks for the rows of a group, books it, is refused a change
# that would take the room of the booking, and asks again, for the first row of each start. Its answers are session.out.
#   examples/session.sh | crates/desk/out/desk batch empty
post() { printf 'POST /changes HTTP/1.1\r\nContent-Length: %d\r\n\r\n%s' "${#1}" "$1"; }
get() { printf 'GET %s HTTP/1.1\r\n\r\n' "$1"; }
post '{"act":"put_zone","caller":7,"number":1,"id":1,"name":"UTC","shifts":[["2000-01-01T00:00Z",0]]}'
post '{"act":"put_calendar","caller":7,"number":2,"id":1,"name":"Day","zone":1}'
post '{"act":"put_work","caller":7,"number":3,"calendar":1,"weekday":0,"from":480,"to":720,"capacity":1}'
post '{"act":"put_unit","caller":7,"number":4,"id":1,"name":"Main"}'
post '{"act":"put_site","caller":7,"number":5,"id":1,"name":"Depot"}'
post '{"act":"put_resource","caller":7,"number":6,"id":1,"name":"Ann","kind":"generic","calendar":1,"unit":1,"site":1}'
post '{"act":"put_resource","caller":7,"number":7,"id":2,"name":"Bob","kind":"generic","calendar":1,"unit":1,"site":1}'
post '{"act":"put_group","caller":7,"number":8,"id":1,"name":"Visit","from":"2025-01-06T08:00Z","to":"2025-01-06T12:00Z","step":60,"tree":{"leaf":{"duration":60,"offset":30,"effort":1}}}'
get /groups/1/rows
post '{"act":"book_group","caller":7,"number":9,"group":1,"start":"2025-01-06T09:00Z","picks":[1]}'
post '{"act":"put_work","caller":7,"number":10,"calendar":1,"weekday":0,"from":480,"to":600,"capacity":1}'
get '/groups/1/rows?per=1&limit=2'
