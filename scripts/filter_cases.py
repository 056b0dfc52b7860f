#!/usr/bin/env python3
"""Writes cases of filters of the whole language for scripts/filter_model.py.

They have each row of the kinds in both orders, and each fault at the front, in the middle and at the end. They have every keyword in three
spellings, and each limit from both sides.
"""
import sys

import filter_model as m
rows=[]
def add(c,t): rows.append((c,t))
P="parcels"
base=[ "", "area >","area > -","NOT (area > 5","NOT NOT area > 5","a = b = c","area IN ()","and = 1",'"AND" = 1',"'a\\'","label = 'x","label > 5","areas > 5","areas > 5 AND label > 5","area","label LIKE label","INTERVAL('x', areas)","area > 10.5","area > 9223372036854775808","begin = DATE('2001-02-29')","T_AFTER(begin, INTERVAL('2010-01-01','2001-01-01'))","("*64,"("*65,"area > 0".ljust(8193),"S_INTERSECTS(geometry, POLYGON((0 0, 10 0, 0 10)))","S_INTERSECTS(geometry, POINT(100000000001 0))","S_WITHIN(geometry, POLYGON((0 0, 10 0, 0 10, 0 0)))",
'"area" > 5','TRUE','area > 10.0','area > 0'.ljust(8192),'(area) > 5','area > .0','area > 5.','TRUE IS NULL']
for t in base: add(P,t)
# keywords in three spellings
samples={"AND":"area > 1 {} area < 5","OR":"area > 1 {} area < 5","NOT":"{} area > 1","LIKE":"label {} 'A%'","BETWEEN":"area {} 1 AND 5","IN":"area {} (1, 2)","IS":"area {} NULL","NULL":"area IS {}","TRUE":"{}","FALSE":"{}","DIV":"area {} 2 = 1","CASEI":"{}(label) = 'a-1'","DATE":"begin = {}('2001-01-01')","INTERVAL":"T_DURING(begin, {}('2001-01-01', '..'))","POINT":"S_INTERSECTS(geometry, {}(1 2))","POLYGON":"S_INTERSECTS(geometry, {}((0 0, 10 0, 0 10, 0 0)))","BBOX":"S_WITHIN(geometry, {}(0,0,10,10))"}
for s in sorted(m.SPATIAL): samples[s]="{}(reference_point, BBOX(0,0,1,1))"
for t in sorted(m.TEMPORAL): samples[t]="{}(lifespan, begin)"
samples["S_CONTAINS"]="{}(BBOX(0,0,9,9), geometry)"
for k,f in samples.items():
    mixed="".join(c.lower() if i%2 else c for i,c in enumerate(k))
    for sp in (k,k.lower(),mixed): add(P,f.format(sp))
    add(P,'"%s" = 1'%k); add(P,"%s = 1"%k.lower())
# kinds
ops={"Whole":["area","5","-5","area + 1","area * 2 - 3 div 4 % 5","(unit)"],"Text":["label","'x'","CASEI(label)","CASEI('x')","''"],"Flag":["TRUE","FALSE","party_required"],"Day":["begin","DATE('2001-01-01')","end"],"Span":["lifespan","INTERVAL(begin, end)","INTERVAL('..', '..')"],"Spot":["reference_point","POINT(1 2)","POINT(-1 +2)"],"Area":["geometry","POLYGON((0 0, 10 0, 0 10, 0 0))"],"Frame":["BBOX(0,0,1,1)","BBOX(-5,-5,5.0,5.)"],"Condition":["area = 1","NOT area = 1","(area = 1 OR area = 2)"]}
def coll(*ts): return "restrictions" if any("party_required" in t for t in ts) else P
def fix(c,t): return t.replace("area","unit").replace("label","type") if c=="restrictions" else t
kinds=list(ops)
for a in kinds:
    for b in kinds:
        x,y=ops[a][0],ops[b][-1]
        c=coll(x,y)
        if c=="restrictions" and ("geometry" in x+y or "reference_point" in x+y): x=x.replace("geometry","POLYGON((0 0, 10 0, 0 10, 0 0))").replace("reference_point","POINT(0 0)"); y=y.replace("geometry","POLYGON((0 0, 10 0, 0 10, 0 0))").replace("reference_point","POINT(0 0)")
        x,y=fix(c,x),fix(c,y)
        X=x if a!="Condition" else "(%s)"%x; Y=y if b!="Condition" else "(%s)"%y
        add(c,f"{X} = {Y}")
        add(c,f"{X} <= {Y}") if kinds.index(a)<=3 else None
        add(c,f"{X} IN ({Y})") if a in("Whole","Text","Flag","Day","Span") else None
        add(c,f"T_BEFORE({X}, {Y})") if a in("Day","Span","Text") else None
        for s in sorted(m.SPATIAL):
            if a in("Spot","Area","Frame") or (a=="Text" and s=="S_WITHIN"): add(c,f"{s}({X}, {Y})")
    x=ops[a][0]; c=coll(x); x=fix(c,x); X=x if a!="Condition" else "(%s)"%x
    add(c,f"{X} IS NULL"); add(c,f"{X} IS NOT NULL"); add(c,f"{X} + 1 = 2"); add(c,f"1 * {X} = 2"); add(c,f"CASEI({X}) = 'a'"); add(c,f"{X} LIKE 'a'"); add(c,f"'a' LIKE {X}"); add(c,f"'a' NOT LIKE CASEI({X})"); add(c,f"{X} BETWEEN 1 AND 2"); add(c,f"1 BETWEEN {X} AND 2"); add(c,f"1 NOT BETWEEN 2 AND {X}"); add(c,f"NOT {X}"); add(c,f"{X} AND TRUE"); add(c,f"FALSE OR {X}"); add(c,X)
for a in kinds:
    for t in ops[a][1:]:
        c=coll(t); add(c,fix(c,t)+" IS NULL" if a!="Condition" else fix(c,t))
# collections
for c in m.SCHEMAS:
    for n in ("object","label","area","geometry","unit_name","party_name","party_required","name","type","share_num","lifespan","reference_point","Object","begin"):
        add(c,f"{n} IS NULL")
# numbers
for n in ["0","007","5.","5.0","5.000",".0",".00",".5","5.5","1e3","1E3","1e","1e+","1e+3","1.e3","1.5e-3","9223372036854775807","9223372036854775808","-9223372036854775808","-9223372036854775809","+5","- 5","-0","--5","+-5","1 2","00000000000000000000000000000000000000001","99999999999999999999.0","99999999999999999999.5","5..0","5.0.0","0x5","1_000","5e5x"]:
    add(P,f"area > {n}"); 
for n in ["5","-5","5.5","1e3","9223372036854775808"]:
    add(P,f"{n} < area"); add(P,f"area + {n} > 0"); add(P,f"area IN (1, {n}, 2)"); add(P,f"S_INTERSECTS(geometry, POINT({n} 0))"); add(P,f"S_INTERSECTS(geometry, BBOX(-9,-9,{n},9))")
# arithmetic grammar
for t in ["area -1 = 0","area - 1 = 0","area+1=2","area*-1=2","area--1=0","area * * 2 = 1","area div div 2 = 1","+area = 1","-(area) = 1","(area + 1) * 2 = 4","area % 2 = 0","area + = 1","area = + 1","area = 1 +","2 * (3 = 3) = 1","(1 = 1) * 2 = 2","area / 2 = 1","area ^ 2 = 1"]: add(P,t)
# texts
for t in ["label = ''","label = ''''","label = 'a''b'","label = 'a\\'b'","label = '\\'","label = '\\\\'","label = '\\\\''","label = 'a''","label = '","label = \"a\"","label = 'é'","label = 'ß' OR label LIKE '_'","'' = label","label LIKE '%'","label LIKE 'A\\%'","label NOT LIKE 'A_'","label LIKE CASEI('a')","label LIKE CASEI(CASEI('a'))","label LIKE CASEI(label)","label LIKE 5","5 LIKE 'a'","label LIKE","LIKE 'a'","label LIKE 'a' LIKE 'b'","label LIKE ('a')","CASEI(CASEI(label)) = 'x'","CASEI(5) = 'x'","CASEI label = 'x'","CASEI() = 'x'","CASEI('x'","CASEI('x' = 'x'"]: add(P,t)
# quoted names
for t in ['"label" = \'x\'','"" = 1','"area > 5','"area"" = 1','"a b" = 1','"area"= 5','"Area" = 5','":x" = 1',':x = 1','_ = 1','a.b = 1','area. = 1','1area = 1','é = 1','"é" = 1']: add(P,t)
# strange
for ch in "!#$&/:;?@[]^`{|}~": add(P,f"area > 5 {ch} 3"); 
for ch in ["\x00","\x7f","\u00a0","\u2003","\x0b","\x0c","\ufeff","é","😀"]: add(P,f"area{ch} > 5")
for t in ["area == 5","area != 5","area => 5","area =< 5","area < = 5","area <> 5","area >< 5","area ><5", "area >\t5\r","\t area\t>\t5 "]: add(P,t)
# tails
for t in ["area NOT = 5","area NOT","area NOT 5","area NOT NOT LIKE 'a'","area NOT IS NULL","area IS","area IS NOT","area IS 5","area IS NOT 5","area IS NULL NULL","area BETWEEN 1","area BETWEEN 1 AND","area BETWEEN 1 OR 2","area BETWEEN 1 AND 2 AND 3 = 3","area BETWEEN 1 AND 2 AND 3","area BETWEEN (1) AND (2)","area NOT BETWEEN 1 AND 2","area NOT IN (1)","area IN 1","area IN (1","area IN (1,","area IN (1,)","area IN (1 2)","area IN (,1)","area IN ((1))","area IN (1) IN (2)","area IN (label)","area IN (1, label)","label IN ('a', 'b', 5)","begin IN (DATE('2001-01-01'), begin, end)","begin IN ('2001-01-01')","TRUE IN (TRUE, FALSE)","TRUE IN (area = 1)","lifespan IN (lifespan)"]: add(P,t)
# logic
for t in ["area = 1 AND","AND area = 1","OR","NOT","NOT NOT TRUE","NOT (NOT TRUE)","NOT TRUE AND FALSE","TRUE AND TRUE OR FALSE AND NOT FALSE","(TRUE)","((TRUE))","(TRUE","TRUE)","()","TRUE TRUE","TRUE FALSE","TRUE AND OR FALSE","(area = 1) = TRUE","TRUE = (area = 1)","TRUE = FALSE","TRUE < FALSE","TRUE <> FALSE","area = 1 AND label","area AND label > 5","label AND area = 1","area = 1 OR (label AND TRUE)","area = 1, area = 2","area AND areas = 1","areas AND area","label > 5 AND areas > 5","(label > 5) AND (areas > 5)","NOT label","NOT areas = 1","1 AND foo = 1"]: add(P,t)
# dates
for d in ["2000-02-29","1900-02-29","2001-1-01","2001-13-01","2001-00-10","2001-04-31","0000-01-01","9999-12-31","10000-01-01","","..","2001-01-01 ","2001-01-01T00:00:00Z"]:
    add(P,f"begin = DATE('{d}')"); add(P,f"T_AFTER(begin, INTERVAL('{d}', '..'))")
for t in ["begin > '2001-01-01'","begin = DATE(label)","begin = DATE(2001)","begin = DATE()","DATE('2001-01-01') = DATE('2001-01-01')","begin + 1 > 0","begin BETWEEN DATE('2001-01-01') AND end","begin < end","begin = NULL","T_AFTER(begin)","T_AFTER(begin, end, end)","T_AFTER()","T_AFTER(begin end)","T_AFTER begin","T_AFTER(label, begin)","T_AFTER(begin, label)","T_AFTER('2001-01-01', begin)","T_MEETS(lifespan, INTERVAL('2001-01-01', '2001-01-01'))","T_MEETS(lifespan, INTERVAL('2001-01-02', '2001-01-01'))","T_MEETS(INTERVAL('2001-01-02', '2001-01-01'), labels)","T_MEETS(labels, INTERVAL('2001-01-02', '2001-01-01'))","INTERVAL('x', 'y') IS NULL","INTERVAL('..', 'y') IS NULL","INTERVAL(area, 'x') IS NULL","INTERVAL(area, 'y') IS NULL","INTERVAL('2001-01-01', area) IS NULL","INTERVAL(begin, area) IS NULL","INTERVAL(begin, lifespan) IS NULL","INTERVAL(begin) IS NULL","INTERVAL(begin,) IS NULL","INTERVAL(begin, end, end) IS NULL","INTERVAL((begin), end) IS NULL","INTERVAL(DATE('2001-01-01'), end) IS NULL","INTERVAL(5, end) IS NULL","INTERVAL(\"begin\", \"end\") IS NULL","INTERVAL('..', '..') IS NULL","INTERVAL('..', '2001-01-01') IS NULL","INTERVAL('2002-01-01', '..') IS NULL","INTERVAL(begins, ends) IS NULL","lifespan = lifespan","lifespan IS NOT NULL"]: add(P,t)
# shapes
for t in ["S_INTERSECTS(geometry)","S_INTERSECTS(geometry, geometry)","S_INTERSECTS(geometry, 5)","S_INTERSECTS(5, geometry)","S_INTERSECTS(label, foo)","S_WITHIN(geometry, geometry)","S_WITHIN(POINT(0 0), geometry)","S_WITHIN(BBOX(0,0,1,1), geometry)","S_WITHIN(BBOX(0,0,1,1), BBOX(0,0,1,1))","S_CONTAINS(geometry, POINT(1 1))","S_CONTAINS(geometry, BBOX(0,0,1,1))","S_CONTAINS(BBOX(0,0,1,1), geometry)","S_CONTAINS(POINT(1 1), geometry)","S_CONTAINS(POINT(1 1), POINT(1 1))","POINT(1 2) IS NULL","POINT(1,2) IS NULL","POINT(1) IS NULL","POINT(1 2 3) IS NULL","POINT() IS NULL","POINT(area 2) IS NULL","POINT((1 2)) IS NULL","POINT(1 + 2) IS NULL","POINT(1 +2) IS NULL","POINT(1-2) IS NULL","POINT(100000000000 -100000000000) IS NULL","POINT(0 100000000001) IS NULL","POINT(-100000000001 0) IS NULL","POINT(1.5 0) IS NULL","POINT(0 1e3) IS NULL","POINT(1.5 99999999999999999999) IS NULL","POINT(99999999999999999999 1.5) IS NULL","POLYGON((0 0, 10 0, 10 10, 0 0)) IS NULL","POLYGON((0 0, 10 0, 0 0)) IS NULL","POLYGON((0 0)) IS NULL","POLYGON(0 0, 10 0, 10 10, 0 0) IS NULL","POLYGON((0 0, 10 0, 10 10)) IS NULL","POLYGON((0 0, 10 10, 10 0, 0 10, 0 0)) IS NULL","POLYGON((0 0, 10 10, 10 0, 0 20, 0 0)) IS NULL","POLYGON((0 0, 0 0, 10 0, 0 10, 0 0)) IS NULL","POLYGON((0 0, 10 0, 5 0, 5 10, 0 0)) IS NULL","POLYGON((0 0, 10 0, 10 10, 0 10, 0 0, 0 0)) IS NULL","POLYGON((0 0, 10 0, 20 0, 20 10, 0 10, 0 0)) IS NULL","POLYGON((0 0, 10 0, 20 0, 0 0)) IS NULL","POLYGON((0 0, 10 0, 10 10, 0 0), (1 1, 2 1, 2 2, 1 1)) IS NULL","POLYGON(()) IS NULL","POLYGON((0, 0)) IS NULL","POLYGON((0 0, 10 0.5, 10 10, 0 0)) IS NULL","POLYGON((0 0, 10 0, 10 100000000001, 0 0)) IS NULL","BBOX(0,0,1,1) IS NULL","BBOX(0,0,0,1) IS NULL","BBOX(0,0,1,0) IS NULL","BBOX(1,0,0,1) IS NULL","BBOX(0,1,1,0) IS NULL","BBOX(0,0,1) IS NULL","BBOX(0,0,1,1,1) IS NULL","BBOX(0 0 1 1) IS NULL","BBOX(-100000000000,-100000000000,100000000000,100000000000) IS NULL","BBOX(-100000000001,0,1,1) IS NULL","BBOX(0,0,1,1.5) IS NULL","S_DISJOINT(POINT(1.5 0), POLYGON((0 0, 1 1)))","S_DISJOINT(POLYGON((0 0, 1 1)), POINT(1.5 0))","geometry = geometry","geometry < geometry","geometry IS NULL","reference_point IS NOT NULL","S_INTERSECTS(BBOX(0,0,1,1), POLYGON((0 0, 10 0, 0 10, 0 0))) AND foo = 1"]: add(P,t)
# limits
def deep(n,inner="area > 0"): return "("*n+inner+")"*n
for n in (1,2,63,64,65,70): add(P,deep(n))
add(P,")"*70+"("*64); add(P,")"*3+"("*65); add(P,"(a) "*70); add(P,"()"*70)
add(P,"area IN ("+", ".join(["1"]*994)+")"); 
for k in (996,997,998,999): add(P,"area IN ("+",".join(["1"]*k)+")")
add(P,"x "*2000); add(P,"x "*2001); add(P,"x "*2000+"'"); add(P,"x "*2000+"#"); add(P,"x "*2000+" "); add(P," OR ".join(["TRUE"]*1000)); add(P," OR ".join(["TRUE"]*1001))
add(P,"'"+"x"*8190+"'"); add(P,"'"+"x"*8191+"'"); add(P,"area"+"x"*8188); add(P," "*8192); add(P," "*8193); add(P,"#"+" "*8192); add(P,"area > 0"+"0"*8184)
# first fault of many
for t in ["areas > 5 AND labels > 5","label > 5 AND areas > 5","area > 5 AND label > 5 AND areas > 5","area > 1.5 OR area > 99999999999999999999","area > 99999999999999999999 OR area > 1.5","foo LIKE bar","label LIKE bar","foo BETWEEN 1.5 AND bar","area BETWEEN foo AND 1.5","CASEI(foo) LIKE 5","(foo) = 1","((label)) > 5","NOT foo","NOT label > 5","area > 5 AND","foo AND","label > 5 #","label > 5 '","(label > 5","foo # bar 'x","foo 'x # bar","S_WITHIN(foo, 5)","S_WITHIN(5, foo)","area IN (foo, 1.5)","area IN (1.5, foo)","label IN (1, foo)","label IN (1, 2)"]: add(P,t)
# each fault at the front, in the middle and at the end
for bad in ["#","area > = 5","areas > 5","label > 5","begin = DATE('2001-02-29')","area = 1e3","area > 9223372036854775808","S_INTERSECTS(geometry, BBOX(1,0,0,1))","T_AFTER(begin, INTERVAL('2010-01-01','2001-01-01'))"]:
    for at in range(3):
        parts = ["area > 0","label = 'x'"]; parts.insert(at,bad); add(P," AND ".join(parts))
for t in ["'y AND area > 0 AND area < 9","area > 0 AND 'y AND area < 9","area > 0 AND area < 9 AND 'y","area > 0 AND area < 9 AND label = 'y"]: add(P,t)
for t in ["AND area > 0 AND label = 'x'","area > 0 AND AND label = 'x'","area > 0 AND label = 'x' AND","area > 0 AND label = 'x' )"]: add(P,t)
for t in [deep(65)+" AND label = 'x'","area > 0 AND "+deep(65)+" AND label = 'x'","area > 0 AND label = 'x' AND "+"("*65,"("*65+"#"]: add(P,t)
for t in ["x "*4002,"+"*4002,"("*4002]: add(P,t)
# exponents
for n in ["1e3","1.5e3","1e0"]: add(P,f"area = {n}")
seen = set()
for collection, text in rows:
    line = collection.encode() + b" " + text.encode()
    if line not in seen and b"\n" not in line:
        seen.add(line)
        sys.stdout.buffer.write(line + b"\n")
