[[machine]]
slots = 0
blocks = 0
[[image]]
name = "i0"
blocks = 1
text = ""
[[image]]
name = "i1"
blocks = 1
text = ""
[[image]]
name = "i2"
blocks = 1
text = ""
[[image]]
name = "i3"
blocks = 1
text = ""
[[image]]
name = "i4"
blocks = 1
text = ""
[[image]]
name = "i5"
blocks = 1
text = ""
[[image]]
name = "i6"
blocks = 1
text = ""
[[image]]
name = "i7"
blocks = 1
text = ""
[[image]]
name = "i8"
blocks = 1
text = ""
[[image]]
name = "i9"
blocks = 1
text = ""
[[image]]
name = "i10"
blocks = 1
text = ""
[[image]]
name = "i11"
blocks = 1
text = ""
[[image]]
name = "i12"
blocks = 1
text = ""
[[image]]
name = "i13"
blocks = 1
text = ""
[[image]]
name = "i14"
blocks = 1
text = ""
[[image]]
name = "i15"
blocks = 1
text = ""
[[image]]
name = "i16"
blocks = 1
text = ""
[[image]]
name = "i17"
blocks = 1
text = ""
[[image]]
name = "i18"
blocks = 1
text = ""
[[image]]
name = "i19"
blocks = 1
text = ""
[[image]]
name = "i20"
blocks = 1
text = ""
[[image]]
name = "i21"
blocks = 1
text = ""
[[image]]
name = "i22"
blocks = 1
text = ""
[[image]]
name = "i23"
blocks = 1
text = ""
[[image]]
name = "i24"
blocks = 1
text = ""
[[image]]
name = "i25"
blocks = 1
text = ""
[[image]]
name = "i26"
blocks = 1
text = ""
[[image]]
name = "i27"
blocks = 1
text = ""
[[image]]
name = "i28"
blocks = 1
text = ""
[[image]]
name = "i29"
blocks = 1
text = ""
[[image]]
name = "i30"
blocks = 1
text = ""
[[image]]
name = "i31"
blocks = 1
text = ""
[[image]]
name = "i32"
blocks = 1
text = ""
[[image]]
name = "i33"
blocks = 1
text = ""
[[image]]
name = "i34"
blocks = 1
text = ""
[[image]]
name = "i35"
blocks = 1
text = ""
[[image]]
name = "i36"
blocks = 1
text = ""
[[image]]
name = "i37"
blocks = 1
text = ""
[[image]]
name = "i38"
blocks = 1
text = ""
[[image]]
name = "i39"
blocks = 1
text = ""
[[image]]
name = "i40"
blocks = 1
text = ""
[[image]]
name = "i41"
blocks = 1
text = ""
[[image]]
name = "i42"
blocks = 1
text = ""
[[image]]
name = "i43"
blocks = 1
text = ""
[[image]]
name = "i44"
blocks = 1
text = ""
[[image]]
name = "i45"
blocks = 1
text = ""
[[image]]
name = "i46"
blocks = 1
text = ""
[[image]]
name = "i47"
blocks = 1
text = ""
[[image]]
name = "i48"
blocks = 1
text = ""
[[image]]
name = "i49"
blocks = 1
text = ""
[[image]]
name = "i50"
blocks = 1
text = ""
[[image]]
name = "i51"
blocks = 1
text = ""
[[image]]
name = "i52"
blocks = 1
text = ""
[[image]]
name = "i53"
blocks = 1
text = ""
[[image]]
name = "i54"
blocks = 1
text = ""
[[image]]
name = "i55"
blocks = 1
text = ""
[[image]]
name = "i56"
blocks = 1
text = ""
[[image]]
name = "i57"
blocks = 1
text = ""
[[image]]
name = "i58"
blocks = 1
text = ""
[[image]]
name = "i59"
blocks = 1
text = ""
[[image]]
name = "i60"
blocks = 1
text = ""
[[image]]
name = "i61"
blocks = 1
text = ""
[[image]]
name = "i62"
blocks = 1
text = ""
[[image]]
name = "i63"
blocks = 1
text = ""
[[image]]
name = "i64"
blocks = 1
text = ""
[[image]]
name = "i65"
blocks = 1
text = ""
[[image]]
name = "i66"
blocks = 1
text = ""
[[image]]
name = "i67"
blocks = 1
text = ""
[[image]]
name = "i68"
blocks = 1
text = ""
[[image]]
name = "i69"
blocks = 1
text = ""
[[image]]
name = "i70"
blocks = 1
text = ""
[[image]]
name = "i71"
blocks = 1
text = ""
[[image]]
name = "i72"
blocks = 1
text = ""
[[image]]
name = "i73"
blocks = 1
text = ""
[[image]]
name = "i74"
blocks = 1
text = ""
[[image]]
name = "i75"
blocks = 1
text = ""
[[image]]
name = "i76"
blocks = 1
text = ""
[[image]]
name = "i77"
blocks = 1
text = ""
[[image]]
name = "i78"
blocks = 1
text = ""
[[image]]
name = "i79"
blocks = 1
text = ""
[[image]]
name = "i80"
blocks = 1
text = ""
[[image]]
name = "i81"
blocks = 1
text = ""
[[image]]
name = "i82"
blocks = 1
text = ""
[[image]]
name = "i83"
blocks = 1
text = ""
[[image]]
name = "i84"
blocks = 1
text = ""
[[image]]
name = "i85"
blocks = 1
text = ""
[[image]]
name = "i86"
blocks = 1
text = ""
[[image]]
name = "i87"
blocks = 1
text = ""
[[image]]
name = "i88"
blocks = 1
text = ""
[[image]]
name = "i89"
blocks = 1
text = ""
[[image]]
name = "i90"
blocks = 1
text = ""
[[image]]
name = "i91"
blocks = 1
text = ""
[[image]]
name = "i92"
blocks = 1
text = ""
[[image]]
name = "i93"
blocks = 1
text = ""
[[image]]
name = "i94"
blocks = 1
text = ""
[[image]]
name = "i95"
blocks = 1
text = ""
[[image]]
name = "i96"
blocks = 1
text = ""
[[image]]
name = "i97"
blocks = 1
text = ""
[[image]]
name = "i98"
blocks = 1
text = ""
[[image]]
name = "i99"
blocks = 1
text = ""
[[image]]
name = "i100"
blocks = 1
text = ""
[[image]]
name = "i101"
blocks = 1
text = ""
[[image]]
name = "i102"
blocks = 1
text = ""
[[image]]
name = "i103"
blocks = 1
text = ""
[[image]]
name = "i104"
blocks = 1
text = ""
[[image]]
name = "i105"
blocks = 1
text = ""
[[image]]
name = "i106"
blocks = 1
text = ""
[[image]]
name = "i107"
blocks = 1
text = ""
[[image]]
name = "i108"
blocks = 1
text = ""
[[image]]
name = "i109"
blocks = 1
text = ""
[[image]]
name = "i110"
blocks = 1
text = ""
[[image]]
name = "i111"
blocks = 1
text = ""
[[image]]
name = "i112"
blocks = 1
text = ""
[[image]]
name = "i113"
blocks = 1
text = ""
[[image]]
name = "i114"
blocks = 1
text = ""
[[image]]
name = "i115"
blocks = 1
text = ""
[[image]]
name = "i116"
blocks = 1
text = ""
[[image]]
name = "i117"
blocks = 1
text = ""
[[image]]
name = "i118"
blocks = 1
text = ""
[[image]]
name = "i119"
blocks = 1
text = ""
[[image]]
name = "i120"
blocks = 1
text = ""
[[image]]
name = "i121"
blocks = 1
text = ""
[[image]]
name = "i122"
blocks = 1
text = ""
[[image]]
name = "i123"
blocks = 1
text = ""
[[image]]
name = "i124"
blocks = 1
text = ""
[[image]]
name = "i125"
blocks = 1
text = ""
[[image]]
name = "i126"
blocks = 1
text = ""
[[image]]
name = "i127"
blocks = 1
text = ""
[[image]]
name = "i128"
blocks = 1
text = ""
[[image]]
name = "i129"
blocks = 1
text = ""
[[image]]
name = "i130"
blocks = 1
text = ""
[[image]]
name = "i131"
blocks = 1
text = ""
[[image]]
name = "i132"
blocks = 1
text = ""
[[image]]
name = "i133"
blocks = 1
text = ""
[[image]]
name = "i134"
blocks = 1
text = ""
[[image]]
name = "i135"
blocks = 1
text = ""
[[image]]
name = "i136"
blocks = 1
text = ""
[[image]]
name = "i137"
blocks = 1
text = ""
[[image]]
name = "i138"
blocks = 1
text = ""
[[image]]
name = "i139"
blocks = 1
text = ""
[[image]]
name = "i140"
blocks = 1
text = ""
[[image]]
name = "i141"
blocks = 1
text = ""
[[image]]
name = "i142"
blocks = 1
text = ""
[[image]]
name = "i143"
blocks = 1
text = ""
[[image]]
name = "i144"
blocks = 1
text = ""
[[image]]
name = "i145"
blocks = 1
text = ""
[[image]]
name = "i146"
blocks = 1
text = ""
[[image]]
name = "i147"
blocks = 1
text = ""
[[image]]
name = "i148"
blocks = 1
text = ""
[[image]]
name = "i149"
blocks = 1
text = ""
[[image]]
name = "i150"
blocks = 1
text = ""
[[image]]
name = "i151"
blocks = 1
text = ""
[[image]]
name = "i152"
blocks = 1
text = ""
[[image]]
name = "i153"
blocks = 1
text = ""
[[image]]
name = "i154"
blocks = 1
text = ""
[[image]]
name = "i155"
blocks = 1
text = ""
[[image]]
name = "i156"
blocks = 1
text = ""
[[image]]
name = "i157"
blocks = 1
text = ""
[[image]]
name = "i158"
blocks = 1
text = ""
[[image]]
name = "i159"
blocks = 1
text = ""
[[image]]
name = "i160"
blocks = 1
text = ""
[[image]]
name = "i161"
blocks = 1
text = ""
[[image]]
name = "i162"
blocks = 1
text = ""
[[image]]
name = "i163"
blocks = 1
text = ""
[[image]]
name = "i164"
blocks = 1
text = ""
[[image]]
name = "i165"
blocks = 1
text = ""
[[image]]
name = "i166"
blocks = 1
text = ""
[[image]]
name = "i167"
blocks = 1
text = ""
[[image]]
name = "i168"
blocks = 1
text = ""
[[image]]
name = "i169"
blocks = 1
text = ""
[[image]]
name = "i170"
blocks = 1
text = ""
[[image]]
name = "i171"
blocks = 1
text = ""
[[image]]
name = "i172"
blocks = 1
text = ""
[[image]]
name = "i173"
blocks = 1
text = ""
[[image]]
name = "i174"
blocks = 1
text = ""
[[image]]
name = "i175"
blocks = 1
text = ""
[[image]]
name = "i176"
blocks = 1
text = ""
[[image]]
name = "i177"
blocks = 1
text = ""
[[image]]
name = "i178"
blocks = 1
text = ""
[[image]]
name = "i179"
blocks = 1
text = ""
[[image]]
name = "i180"
blocks = 1
text = ""
[[image]]
name = "i181"
blocks = 1
text = ""
[[image]]
name = "i182"
blocks = 1
text = ""
[[image]]
name = "i183"
blocks = 1
text = ""
[[image]]
name = "i184"
blocks = 1
text = ""
[[image]]
name = "i185"
blocks = 1
text = ""
[[image]]
name = "i186"
blocks = 1
text = ""
[[image]]
name = "i187"
blocks = 1
text = ""
[[image]]
name = "i188"
blocks = 1
text = ""
[[image]]
name = "i189"
blocks = 1
text = ""
[[image]]
name = "i190"
blocks = 1
text = ""
[[image]]
name = "i191"
blocks = 1
text = ""
[[image]]
name = "i192"
blocks = 1
text = ""
[[image]]
name = "i193"
blocks = 1
text = ""
[[image]]
name = "i194"
blocks = 1
text = ""
[[image]]
name = "i195"
blocks = 1
text = ""
[[image]]
name = "i196"
blocks = 1
text = ""
[[image]]
name = "i197"
blocks = 1
text = ""
[[image]]
name = "i198"
blocks = 1
text = ""
[[image]]
name = "i199"
blocks = 1
text = ""
[[image]]
name = "i200"
blocks = 1
text = ""
[[image]]
name = "i201"
blocks = 1
text = ""
[[image]]
name = "i202"
blocks = 1
text = ""
[[image]]
name = "i203"
blocks = 1
text = ""
[[image]]
name = "i204"
blocks = 1
text = ""
[[image]]
name = "i205"
blocks = 1
text = ""
[[image]]
name = "i206"
blocks = 1
text = ""
[[image]]
name = "i207"
blocks = 1
text = ""
[[image]]
name = "i208"
blocks = 1
text = ""
[[image]]
name = "i209"
blocks = 1
text = ""
[[image]]
name = "i210"
blocks = 1
text = ""
[[image]]
name = "i211"
blocks = 1
text = ""
[[image]]
name = "i212"
blocks = 1
text = ""
[[image]]
name = "i213"
blocks = 1
text = ""
[[image]]
name = "i214"
blocks = 1
text = ""
[[image]]
name = "i215"
blocks = 1
text = ""
[[image]]
name = "i216"
blocks = 1
text = ""
[[image]]
name = "i217"
blocks = 1
text = ""
[[image]]
name = "i218"
blocks = 1
text = ""
[[image]]
name = "i219"
blocks = 1
text = ""
[[image]]
name = "i220"
blocks = 1
text = ""
[[image]]
name = "i221"
blocks = 1
text = ""
[[image]]
name = "i222"
blocks = 1
text = ""
[[image]]
name = "i223"
blocks = 1
text = ""
[[image]]
name = "i224"
blocks = 1
text = ""
[[image]]
name = "i225"
blocks = 1
text = ""
[[image]]
name = "i226"
blocks = 1
text = ""
[[image]]
name = "i227"
blocks = 1
text = ""
[[image]]
name = "i228"
blocks = 1
text = ""
[[image]]
name = "i229"
blocks = 1
text = ""
[[image]]
name = "i230"
blocks = 1
text = ""
[[image]]
name = "i231"
blocks = 1
text = ""
[[image]]
name = "i232"
blocks = 1
text = ""
[[image]]
name = "i233"
blocks = 1
text = ""
[[image]]
name = "i234"
blocks = 1
text = ""
[[image]]
name = "i235"
blocks = 1
text = ""
[[image]]
name = "i236"
blocks = 1
text = ""
[[image]]
name = "i237"
blocks = 1
text = ""
[[image]]
name = "i238"
blocks = 1
text = ""
[[image]]
name = "i239"
blocks = 1
text = ""
[[image]]
name = "i240"
blocks = 1
text = ""
[[image]]
name = "i241"
blocks = 1
text = ""
[[image]]
name = "i242"
blocks = 1
text = ""
[[image]]
name = "i243"
blocks = 1
text = ""
[[image]]
name = "i244"
blocks = 1
text = ""
[[image]]
name = "i245"
blocks = 1
text = ""
[[image]]
name = "i246"
blocks = 1
text = ""
[[image]]
name = "i247"
blocks = 1
text = ""
[[image]]
name = "i248"
blocks = 1
text = ""
[[image]]
name = "i249"
blocks = 1
text = ""
[[image]]
name = "i250"
blocks = 1
text = ""
[[image]]
name = "i251"
blocks = 1
text = ""
[[image]]
name = "i252"
blocks = 1
text = ""
[[image]]
name = "i253"
blocks = 1
text = ""
[[image]]
name = "i254"
blocks = 1
text = ""
[[image]]
name = "i255"
blocks = 1
text = ""
