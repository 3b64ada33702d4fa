//! The sets that are measured.

/// Document 01's example.
pub const EXAMPLE: &str = "ID=1 EVERY $A_IN[1]==1 DO $AC_MARKER[0]=$AC_MARKER[0]+1 M=7\n";

/// A flying cutter: R[1] the length of a piece, R[2] the lead, R[3] the ratio of wheel to carriage, R[4] the tolerance of being in step,
/// R[10] where the carriage rests; FIFO 1 holds where the next cuts lie. X is the carriage, Y the wheel.
pub const CUTTER: &str = "\
ID=1 EVERY ($A_IN[1]==1) AND ($A_IN[2]==1) DO $AC_FIFO1[0]=$AA_IM[Y]+$R[1] $AC_MARKER[0]=$AC_MARKER[0]+1
ID=2 WHENEVER ($AC_FIFO1[4]>0) AND ($AA_IM[Y]>=$AC_FIFO1[1]-$R[2]) DO $AC_MARKER[1]=1 $R[20]=$AC_FIFO1[1]-$AA_IM[Y]
IDS=3 WHENEVER $AC_MARKER[1]==1 DO FA[X]=$A_INA[1]*$R[3] POS[X]=$R[10]-$R[20]*1.002
ID=4 WHENEVER ($AA_IM[X]>$R[10]) AND ($R[21]<=$R[4]) AND ($R[21]>=-$R[4]) DO $A_OUT[3]=1 $R[21]=($AA_IM[Y]-$AC_FIFO1[1])-($AA_IM[X]-$R[10])
ID=5 EVERY ($A_OUT[3]==1) AND NOT ($A_IN[4]==1) DO $A_OUT[4]=1 $AC_TIMER[0]=0
ID=6 WHENEVER ($A_IN[5]==1) OR ($AC_TIMER[0]>$R[5]/1000) DO $A_OUT[4]=0 $R[22]=$AC_TIMER[0]*1000-$R[5]
ID=7 EVERY ($A_OUT[4]==0) AND ($A_IN[6]==1) DO $R[23]=$AC_FIFO1[0] $AC_MARKER[2]=$AC_MARKER[2]+1 $R[24]=$R[24]+($R[20]-$R[24])*0.125
ID=8 WHENEVER ($AA_IM[X]>=$R[6]-$R[7]) OR ($AC_MARKER[2]==$AC_MARKER[0]) DO MOV[X]=-1 FA[X]=($A_INA[2]+$R[8])*1.5
IDS=9 WHENEVER ($A_INA[3]*2>$R[9]) XOR ($A_IN[7]==1) DO $A_OUT[5]=1 $AC_PARAM[1]=$A_INA[3]*2-$R[9]
ID=10 FROM $AC_MARKER[0]>=$R[14] DO $AC_PARAM[2]=($AC_MARKER[0]-$R[14])/2 $R[25]=$AC_FIFO1[3]/($AC_FIFO1[4]+1)
ID=11 WHENEVER ($AC_FIFO1[2]-$AC_FIFO1[1]>$R[1]*4) AND ($AC_FIFO1[4]>=3) DO FA[X]=$A_INA[1]*($R[3]+0.05) $R[26]=($AC_FIFO1[2]-$AC_FIFO1[1])/$AC_FIFO1[4]
IDS=12 EVERY ($A_IN[8]==0) AND (($AA_IM[X]<$R[15]) OR ($AA_IM[X]>$R[16])) DO $A_OUT[6]=1 $AC_MARKER[3]=$AC_MARKER[3]+1 SETAL(65010)
";

/// Eight brackets open, the most that a line may have: at the left, at the right, around a single variable, and around yes/no.
pub const BRACKETS: &str = "\
ID=1 WHENEVER (((((((($R[1]+1)*2)-3)/2)+$R[2])*3)-$R[3])>$R[4]) DO $R[30]=(((((((($R[5]-2)*3)+$R[6])/4)-1)*$R[7])+5)/2)
ID=2 WHENEVER $R[1]>(2*($R[2]+(3-($R[3]*(1+($R[4]-(2+($R[5]/4)))))))) DO $R[31]=$R[6]-(1+($R[7]*(2-($R[8]+(3*($R[9]-(4+($R[10]/2))))))))
ID=3 WHENEVER (((((((($R[11]))))))))<(((((((($R[12])))))))) DO $R[32]=(((((((($R[13]))))))))
ID=4 WHENEVER (((((((($R[1]>1) AND TRUE) OR FALSE) AND TRUE) XOR FALSE) OR FALSE) AND TRUE) OR FALSE) DO $R[33]=-(-(-(-(-(-(-(-$R[14])))))))
";

/// Signs of the longest chain that is measured.
const SIGNS: usize = 4000;

/// One right side with 4,000 minus signs, nearly all that a text has room for.
pub fn signs() -> String {
    format!("ID=1 DO $R[1]={}$R[2]\n", "-".repeat(SIGNS))
}

/// Lines of eight actions and 128 bytes each: 32 of them are all the lines and bytes that a text may have.
pub fn full(lines: usize) -> String {
    let line = |number| format!("ID={number} DO $R[1]=$R[2]+1{}\n", " $R[1]=$R[2]+10".repeat(7));
    (11..).take(lines).map(line).collect()
}
