// PWM with a carrier: a triangle of 1 kHz that clauses turn at 1 and -1, compared with a sine of 50 Hz.
// Units: ms, V, A, Ohm, mH. The relations at the turns are not strict. Look at i: about a sine of 17.1 A.
// Plot: tools/qss-plot examples/idioms/pwm_carrier.mo --names ref,tri,i
model pwm_carrier "PWM with a carrier"
  parameter Real U = 400 "V", f = 0.05 "kHz", fc = 1 "kHz", m = 0.9, pi = 3.14159265, w = 2*pi*f;
  parameter Real R = 10 "Ohm", L = 10 "mH";
  Real ref(start = 0), quad(start = m) annotation(QSS_Quantum = 1/1024), tri(start = -1);
  Real i(start = 0, unit = "A") annotation(QSS_Quantum = 1/64);
  discrete Real up(start = 1), s(start = 1), sync(start = 1/f);
equation
  der(ref) = w*quad;
  der(quad) = -w*ref;
  der(tri) = 4*fc*up;
  der(i) = (U*(s - 0.5) - R*i)/L;
algorithm
  when time >= sync then
    reinit(ref, 0);
    reinit(quad, m);
    sync := pre(sync) + 1/f;
  end when;
  when tri >= 1 then
    up := -1;
  elsewhen tri <= -1 then
    up := 1;
  end when;
  when ref > tri then
    s := 1;
  elsewhen ref < tri then
    s := 0;
  end when;
  annotation(experiment(StopTime = 60, QSS_CoefBits = 24, QSS_TickBits = 12, QSS_LevelBits = 20, QSS_Quantum = 1/1024, QSS_TimeUnit = "ms"));
end pwm_carrier;
