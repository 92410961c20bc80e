'use strict';
// Constant pools: jumps whose distance stands in the pool, more than 256 constants, holes, and operands of two and four bytes.

// Jumps over more than 255 bytes: their distances stand in the pool.
exports.over = function over(a, b) {
  if (a.b) {
    a.p0; a.p1; a.p2; a.p3; a.p4; a.p5; a.p6; a.p7; a.p8; a.p9;
    a.p10; a.p11; a.p12; a.p13; a.p14; a.p15; a.p16; a.p17; a.p18; a.p19;
    a.p20; a.p21; a.p22; a.p23; a.p24; a.p25; a.p26; a.p27; a.p28; a.p29;
    a.p30; a.p31; a.p32; a.p33; a.p34; a.p35; a.p36; a.p37; a.p38; a.p39;
    a.p40; a.p41; a.p42; a.p43; a.p44; a.p45; a.p46; a.p47; a.p48; a.p49;
    a.p50; a.p51; a.p52; a.p53; a.p54; a.p55; a.p56; a.p57; a.p58; a.p59;
    a.p60; a.p61; a.p62; a.p63; a.p64; a.p65; a.p66; a.p67; a.p68; a.p69;
  } else {
    a.else;
  }
  return b;
};
exports.either = (a, b) => b || (a.q0 + a.q1 + a.q2 + a.q3 + a.q4 + a.q5 + a.q6 + a.q7 + a.q8 + a.q9 + a.q10 + a.q11 + a.q12 + a.q13 + a.q14 + a.q15 + a.q16 + a.q17 + a.q18 + a.q19 + a.q20 + a.q21 + a.q22 + a.q23 + a.q24 + a.q25 + a.q26 + a.q27 + a.q28 + a.q29 + a.q30 + a.q31 + a.q32 + a.q33 + a.q34 + a.q35);
exports.both = (a, b) => b && (a.q0 + a.q1 + a.q2 + a.q3 + a.q4 + a.q5 + a.q6 + a.q7 + a.q8 + a.q9 + a.q10 + a.q11 + a.q12 + a.q13 + a.q14 + a.q15 + a.q16 + a.q17 + a.q18 + a.q19 + a.q20 + a.q21 + a.q22 + a.q23 + a.q24 + a.q25 + a.q26 + a.q27 + a.q28 + a.q29 + a.q30 + a.q31 + a.q32 + a.q33 + a.q34 + a.q35);
exports.known = (a, b) => b ?? (a.q0 + a.q1 + a.q2 + a.q3 + a.q4 + a.q5 + a.q6 + a.q7 + a.q8 + a.q9 + a.q10 + a.q11 + a.q12 + a.q13 + a.q14 + a.q15 + a.q16 + a.q17 + a.q18 + a.q19 + a.q20 + a.q21 + a.q22 + a.q23 + a.q24 + a.q25 + a.q26 + a.q27 + a.q28 + a.q29 + a.q30 + a.q31 + a.q32 + a.q33 + a.q34 + a.q35);
exports.reached = (a, b) => b?.[a.q0 + a.q1 + a.q2 + a.q3 + a.q4 + a.q5 + a.q6 + a.q7 + a.q8 + a.q9 + a.q10 + a.q11 + a.q12 + a.q13 + a.q14 + a.q15 + a.q16 + a.q17 + a.q18 + a.q19 + a.q20 + a.q21 + a.q22 + a.q23 + a.q24 + a.q25 + a.q26 + a.q27 + a.q28 + a.q29 + a.q30 + a.q31 + a.q32 + a.q33 + a.q34 + a.q35];
exports.same = (a, b) => (b === 1 ? (a.q0 + a.q1 + a.q2 + a.q3 + a.q4 + a.q5 + a.q6 + a.q7 + a.q8 + a.q9 + a.q10 + a.q11 + a.q12 + a.q13 + a.q14 + a.q15 + a.q16 + a.q17 + a.q18 + a.q19 + a.q20 + a.q21 + a.q22 + a.q23 + a.q24 + a.q25 + a.q26 + a.q27 + a.q28 + a.q29 + a.q30 + a.q31 + a.q32 + a.q33 + a.q34 + a.q35) : 2);
exports.chosen = (a, b) => (b == null ? (a.q0 + a.q1 + a.q2 + a.q3 + a.q4 + a.q5 + a.q6 + a.q7 + a.q8 + a.q9 + a.q10 + a.q11 + a.q12 + a.q13 + a.q14 + a.q15 + a.q16 + a.q17 + a.q18 + a.q19 + a.q20 + a.q21 + a.q22 + a.q23 + a.q24 + a.q25 + a.q26 + a.q27 + a.q28 + a.q29 + a.q30 + a.q31 + a.q32 + a.q33 + a.q34 + a.q35) : 2);
exports.present = (a, b) => (b !== undefined ? (a.q0 + a.q1 + a.q2 + a.q3 + a.q4 + a.q5 + a.q6 + a.q7 + a.q8 + a.q9 + a.q10 + a.q11 + a.q12 + a.q13 + a.q14 + a.q15 + a.q16 + a.q17 + a.q18 + a.q19 + a.q20 + a.q21 + a.q22 + a.q23 + a.q24 + a.q25 + a.q26 + a.q27 + a.q28 + a.q29 + a.q30 + a.q31 + a.q32 + a.q33 + a.q34 + a.q35) : 2);
exports.absent = (a, b) => (b === null ? (a.q0 + a.q1 + a.q2 + a.q3 + a.q4 + a.q5 + a.q6 + a.q7 + a.q8 + a.q9 + a.q10 + a.q11 + a.q12 + a.q13 + a.q14 + a.q15 + a.q16 + a.q17 + a.q18 + a.q19 + a.q20 + a.q21 + a.q22 + a.q23 + a.q24 + a.q25 + a.q26 + a.q27 + a.q28 + a.q29 + a.q30 + a.q31 + a.q32 + a.q33 + a.q34 + a.q35) : 2);
exports.repeated = function repeated(a, n) {
  for (let k = 0; k < n; k++) {
    if (k === a.stop) break;
    if (k === a.skip) continue;
    a.p0; a.p1; a.p2; a.p3; a.p4; a.p5; a.p6; a.p7; a.p8; a.p9;
    a.p10; a.p11; a.p12; a.p13; a.p14; a.p15; a.p16; a.p17; a.p18; a.p19;
    a.p20; a.p21; a.p22; a.p23; a.p24; a.p25; a.p26; a.p27; a.p28; a.p29;
    a.p30; a.p31; a.p32; a.p33; a.p34; a.p35; a.p36; a.p37; a.p38; a.p39;
    a.p40; a.p41; a.p42; a.p43; a.p44; a.p45; a.p46; a.p47; a.p48; a.p49;
    a.p50; a.p51; a.p52; a.p53; a.p54; a.p55; a.p56; a.p57; a.p58; a.p59;
    a.p60; a.p61; a.p62; a.p63; a.p64; a.p65; a.p66; a.p67; a.p68; a.p69;
  }
  return n;
};
exports.listed = function listed(a) {
  for (const k in a) {
    a.p0; a.p1; a.p2; a.p3; a.p4; a.p5; a.p6; a.p7; a.p8; a.p9;
    a.p10; a.p11; a.p12; a.p13; a.p14; a.p15; a.p16; a.p17; a.p18; a.p19;
    a.p20; a.p21; a.p22; a.p23; a.p24; a.p25; a.p26; a.p27; a.p28; a.p29;
    a.p30; a.p31; a.p32; a.p33; a.p34; a.p35; a.p36; a.p37; a.p38; a.p39;
    a.p40; a.p41; a.p42; a.p43; a.p44; a.p45; a.p46; a.p47; a.p48; a.p49;
    a.p50; a.p51; a.p52; a.p53; a.p54; a.p55; a.p56; a.p57; a.p58; a.p59;
  }
  for (const item of a) {
    if (item) continue;
    a.p0; a.p1; a.p2; a.p3; a.p4; a.p5; a.p6; a.p7; a.p8; a.p9;
    a.p10; a.p11; a.p12; a.p13; a.p14; a.p15; a.p16; a.p17; a.p18; a.p19;
    a.p20; a.p21; a.p22; a.p23; a.p24; a.p25; a.p26; a.p27; a.p28; a.p29;
    a.p30; a.p31; a.p32; a.p33; a.p34; a.p35; a.p36; a.p37; a.p38; a.p39;
    a.p40; a.p41; a.p42; a.p43; a.p44; a.p45; a.p46; a.p47; a.p48; a.p49;
    a.p50; a.p51; a.p52; a.p53; a.p54; a.p55; a.p56; a.p57; a.p58; a.p59;
  }
};
exports.guarded = function guarded(a, f) {
  try {
    if (a.now) return f();
    a.p0; a.p1; a.p2; a.p3; a.p4; a.p5; a.p6; a.p7; a.p8; a.p9;
    a.p10; a.p11; a.p12; a.p13; a.p14; a.p15; a.p16; a.p17; a.p18; a.p19;
    a.p20; a.p21; a.p22; a.p23; a.p24; a.p25; a.p26; a.p27; a.p28; a.p29;
    a.p30; a.p31; a.p32; a.p33; a.p34; a.p35; a.p36; a.p37; a.p38; a.p39;
    a.p40; a.p41; a.p42; a.p43; a.p44; a.p45; a.p46; a.p47; a.p48; a.p49;
    a.p50; a.p51; a.p52; a.p53; a.p54; a.p55; a.p56; a.p57; a.p58; a.p59;
    a.p60; a.p61; a.p62; a.p63; a.p64; a.p65; a.p66; a.p67; a.p68; a.p69;
  } catch (e) {
    f(e);
  } finally {
    f(a);
  }
};
exports.defaulted = function defaulted(a, b = (a.q0 + a.q1 + a.q2 + a.q3 + a.q4 + a.q5 + a.q6 + a.q7 + a.q8 + a.q9 + a.q10 + a.q11 + a.q12 + a.q13 + a.q14 + a.q15 + a.q16 + a.q17 + a.q18 + a.q19 + a.q20 + a.q21 + a.q22 + a.q23 + a.q24 + a.q25 + a.q26 + a.q27 + a.q28 + a.q29 + a.q30 + a.q31 + a.q32 + a.q33 + a.q34 + a.q35)) {
  return b;
};

// More than 256 constants: their numbers take two bytes, and so do the operands beside them.
exports.many = function many(a) {
    a.p0; a.p1; a.p2; a.p3; a.p4; a.p5; a.p6; a.p7; a.p8; a.p9;
    a.p10; a.p11; a.p12; a.p13; a.p14; a.p15; a.p16; a.p17; a.p18; a.p19;
    a.p20; a.p21; a.p22; a.p23; a.p24; a.p25; a.p26; a.p27; a.p28; a.p29;
    a.p30; a.p31; a.p32; a.p33; a.p34; a.p35; a.p36; a.p37; a.p38; a.p39;
    a.p40; a.p41; a.p42; a.p43; a.p44; a.p45; a.p46; a.p47; a.p48; a.p49;
    a.p50; a.p51; a.p52; a.p53; a.p54; a.p55; a.p56; a.p57; a.p58; a.p59;
    a.p60; a.p61; a.p62; a.p63; a.p64; a.p65; a.p66; a.p67; a.p68; a.p69;
    a.p70; a.p71; a.p72; a.p73; a.p74; a.p75; a.p76; a.p77; a.p78; a.p79;
    a.p80; a.p81; a.p82; a.p83; a.p84; a.p85; a.p86; a.p87; a.p88; a.p89;
    a.p90; a.p91; a.p92; a.p93; a.p94; a.p95; a.p96; a.p97; a.p98; a.p99;
    a.p100; a.p101; a.p102; a.p103; a.p104; a.p105; a.p106; a.p107; a.p108; a.p109;
    a.p110; a.p111; a.p112; a.p113; a.p114; a.p115; a.p116; a.p117; a.p118; a.p119;
    a.p120; a.p121; a.p122; a.p123; a.p124; a.p125; a.p126; a.p127; a.p128; a.p129;
    a.p130; a.p131; a.p132; a.p133; a.p134; a.p135; a.p136; a.p137; a.p138; a.p139;
    a.p140; a.p141; a.p142; a.p143; a.p144; a.p145; a.p146; a.p147; a.p148; a.p149;
    a.p150; a.p151; a.p152; a.p153; a.p154; a.p155; a.p156; a.p157; a.p158; a.p159;
    a.p160; a.p161; a.p162; a.p163; a.p164; a.p165; a.p166; a.p167; a.p168; a.p169;
    a.p170; a.p171; a.p172; a.p173; a.p174; a.p175; a.p176; a.p177; a.p178; a.p179;
    a.p180; a.p181; a.p182; a.p183; a.p184; a.p185; a.p186; a.p187; a.p188; a.p189;
    a.p190; a.p191; a.p192; a.p193; a.p194; a.p195; a.p196; a.p197; a.p198; a.p199;
    a.p200; a.p201; a.p202; a.p203; a.p204; a.p205; a.p206; a.p207; a.p208; a.p209;
    a.p210; a.p211; a.p212; a.p213; a.p214; a.p215; a.p216; a.p217; a.p218; a.p219;
    a.p220; a.p221; a.p222; a.p223; a.p224; a.p225; a.p226; a.p227; a.p228; a.p229;
    a.p230; a.p231; a.p232; a.p233; a.p234; a.p235; a.p236; a.p237; a.p238; a.p239;
    a.p240; a.p241; a.p242; a.p243; a.p244; a.p245; a.p246; a.p247; a.p248; a.p249;
    a.p250; a.p251; a.p252; a.p253; a.p254; a.p255; a.p256; a.p257; a.p258; a.p259;
    a.p260; a.p261;
  return a.first ? 'first of the second part' : 'second of the second part';
};

// While the distances of seven jumps are kept free in the pool, its first part is full and a constant goes to the second; the jumps turn out short, and
// what was kept for them stays holes.
exports.holes = function holes(a, b) {
    a.p0; a.p1; a.p2; a.p3; a.p4; a.p5; a.p6; a.p7; a.p8; a.p9;
    a.p10; a.p11; a.p12; a.p13; a.p14; a.p15; a.p16; a.p17; a.p18; a.p19;
    a.p20; a.p21; a.p22; a.p23; a.p24; a.p25; a.p26; a.p27; a.p28; a.p29;
    a.p30; a.p31; a.p32; a.p33; a.p34; a.p35; a.p36; a.p37; a.p38; a.p39;
    a.p40; a.p41; a.p42; a.p43; a.p44; a.p45; a.p46; a.p47; a.p48; a.p49;
    a.p50; a.p51; a.p52; a.p53; a.p54; a.p55; a.p56; a.p57; a.p58; a.p59;
    a.p60; a.p61; a.p62; a.p63; a.p64; a.p65; a.p66; a.p67; a.p68; a.p69;
    a.p70; a.p71; a.p72; a.p73; a.p74; a.p75; a.p76; a.p77; a.p78; a.p79;
    a.p80; a.p81; a.p82; a.p83; a.p84; a.p85; a.p86; a.p87; a.p88; a.p89;
    a.p90; a.p91; a.p92; a.p93; a.p94; a.p95; a.p96; a.p97; a.p98; a.p99;
    a.p100; a.p101; a.p102; a.p103; a.p104; a.p105; a.p106; a.p107; a.p108; a.p109;
    a.p110; a.p111; a.p112; a.p113; a.p114; a.p115; a.p116; a.p117; a.p118; a.p119;
    a.p120; a.p121; a.p122; a.p123; a.p124; a.p125; a.p126; a.p127; a.p128; a.p129;
    a.p130; a.p131; a.p132; a.p133; a.p134; a.p135; a.p136; a.p137; a.p138; a.p139;
    a.p140; a.p141; a.p142; a.p143; a.p144; a.p145; a.p146; a.p147; a.p148; a.p149;
    a.p150; a.p151; a.p152; a.p153; a.p154; a.p155; a.p156; a.p157; a.p158; a.p159;
    a.p160; a.p161; a.p162; a.p163; a.p164; a.p165; a.p166; a.p167; a.p168; a.p169;
    a.p170; a.p171; a.p172; a.p173; a.p174; a.p175; a.p176; a.p177; a.p178; a.p179;
    a.p180; a.p181; a.p182; a.p183; a.p184; a.p185; a.p186; a.p187; a.p188; a.p189;
    a.p190; a.p191; a.p192; a.p193; a.p194; a.p195; a.p196; a.p197; a.p198; a.p199;
    a.p200; a.p201; a.p202; a.p203; a.p204; a.p205; a.p206; a.p207; a.p208; a.p209;
    a.p210; a.p211; a.p212; a.p213; a.p214; a.p215; a.p216; a.p217; a.p218; a.p219;
    a.p220; a.p221; a.p222; a.p223; a.p224; a.p225; a.p226; a.p227; a.p228; a.p229;
    a.p230; a.p231; a.p232; a.p233; a.p234; a.p235; a.p236; a.p237; a.p238; a.p239;
    a.p240; a.p241; a.p242; a.p243; a.p244; a.p245;
  return b ? (b.a1 ? (b.a2 ? (b.a3 ? (b.a4 ? (b.a5 ? (b.a6 ? 'deep' : 6) : 5) : 4) : 3) : 2) : 1) : 0;
};

// More than 128 registers.
exports.registers = function registers(f, n) {
  const v0 = f, v1 = f, v2 = f, v3 = f, v4 = f, v5 = f, v6 = f, v7 = f, v8 = f, v9 = f, v10 = f, v11 = f, v12 = f, v13 = f, v14 = f, v15 = f, v16 = f, v17 = f, v18 = f, v19 = f, v20 = f, v21 = f, v22 = f, v23 = f, v24 = f, v25 = f, v26 = f, v27 = f, v28 = f, v29 = f, v30 = f, v31 = f, v32 = f, v33 = f, v34 = f, v35 = f, v36 = f, v37 = f, v38 = f, v39 = f, v40 = f, v41 = f, v42 = f, v43 = f, v44 = f, v45 = f, v46 = f, v47 = f, v48 = f, v49 = f, v50 = f, v51 = f, v52 = f, v53 = f, v54 = f, v55 = f, v56 = f, v57 = f, v58 = f, v59 = f, v60 = f, v61 = f, v62 = f, v63 = f, v64 = f, v65 = f, v66 = f, v67 = f, v68 = f, v69 = f, v70 = f, v71 = f, v72 = f, v73 = f, v74 = f, v75 = f, v76 = f, v77 = f, v78 = f, v79 = f, v80 = f, v81 = f, v82 = f, v83 = f, v84 = f, v85 = f, v86 = f, v87 = f, v88 = f, v89 = f, v90 = f, v91 = f, v92 = f, v93 = f, v94 = f, v95 = f, v96 = f, v97 = f, v98 = f, v99 = f, v100 = f, v101 = f, v102 = f, v103 = f, v104 = f, v105 = f, v106 = f, v107 = f, v108 = f, v109 = f, v110 = f, v111 = f, v112 = f, v113 = f, v114 = f, v115 = f, v116 = f, v117 = f, v118 = f, v119 = f, v120 = f, v121 = f, v122 = f, v123 = f, v124 = f, v125 = f, v126 = f, v127 = f, v128 = f, v129 = f;
  for (let k = 0; k < n; k++) v129(v128, v127, v126, k);
  return v1(v128, ...v127.list);
};
exports.locals = function locals(f) {
  let v0 = 0, v1 = 1, v2 = 2, v3 = 3, v4 = 4, v5 = 5, v6 = 6, v7 = 7, v8 = 8, v9 = 9, v10 = 10, v11 = 11, v12 = 12, v13 = 13, v14 = 14, v15 = 15, v16 = 16, v17 = 17, v18 = 18, v19 = 19, v20 = 20, v21 = 21, v22 = 22, v23 = 23, v24 = 24, v25 = 25, v26 = 26, v27 = 27, v28 = 28, v29 = 29, v30 = 30, v31 = 31, v32 = 32, v33 = 33, v34 = 34, v35 = 35, v36 = 36, v37 = 37, v38 = 38, v39 = 39, v40 = 40, v41 = 41, v42 = 42, v43 = 43, v44 = 44, v45 = 45, v46 = 46, v47 = 47, v48 = 48, v49 = 49, v50 = 50, v51 = 51, v52 = 52, v53 = 53, v54 = 54, v55 = 55, v56 = 56, v57 = 57, v58 = 58, v59 = 59, v60 = 60, v61 = 61, v62 = 62, v63 = 63, v64 = 64, v65 = 65, v66 = 66, v67 = 67, v68 = 68, v69 = 69, v70 = 70, v71 = 71, v72 = 72, v73 = 73, v74 = 74, v75 = 75, v76 = 76, v77 = 77, v78 = 78, v79 = 79, v80 = 80, v81 = 81, v82 = 82, v83 = 83, v84 = 84, v85 = 85, v86 = 86, v87 = 87, v88 = 88, v89 = 89, v90 = 90, v91 = 91, v92 = 92, v93 = 93, v94 = 94, v95 = 95, v96 = 96, v97 = 97, v98 = 98, v99 = 99, v100 = 100, v101 = 101, v102 = 102, v103 = 103, v104 = 104, v105 = 105, v106 = 106, v107 = 107, v108 = 108, v109 = 109, v110 = 110, v111 = 111, v112 = 112, v113 = 113, v114 = 114, v115 = 115, v116 = 116, v117 = 117, v118 = 118, v119 = 119, v120 = 120, v121 = 121, v122 = 122, v123 = 123, v124 = 124, v125 = 125, w0 = f(v1, v2), w1 = f(w0), w2 = f(w1, v3), w3 = f(w2);
  while (f(w3, w2)) w3 = w2 ? v125 : v1;
  return w3 + v2;
};

// Numbers of two and four bytes.
exports.numbers = (f) => f(127, 128, 32767, 32768, -32768, -32769, 2147483647, 2147483648, 0.5, -0);
